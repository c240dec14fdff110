import { currency } from "./cart";
import type { Price } from "./price";
/** Something that the shop sells. */
export interface Item {
  name: string;
  price: Price;
  tags?: string[];
}

export function describe(item: Item): string {
  return `${item.name}: ${item.price.cents} ${currency}`;
}

export function shout(item: Item): string {
  return describe(item).toUpperCase();
}
