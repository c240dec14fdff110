import { Item } from "./item";

export const currency = "EUR";

export class Price {
  constructor(readonly cents: number) {}

  plus(other: Price): Price {
    return new Price(this.cents + other.cents);
  }
}

export function total(items: Item[]): Price {
  return new Price(items.reduce((sum, it) => sum + it.price.cents, 0));
}
