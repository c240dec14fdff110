import { describe, Item } from "./item";
import { Price } from "./price";

export const currency = "EUR";
/** Adds up the prices of the items. */
export function total(items: Item[], round = true): Price {
  items.forEach((it) => describe(it));
  return new Price(items.reduce((sum, it) => sum + it.price.cents, 0), round);
}
