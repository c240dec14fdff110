import type { Price } from "./cart";

export interface Item {
  name: string;
  price: Price;
}
