export class Price {
  constructor(readonly cents: number, readonly isRound = false) {}

  plus(other: Price): Price {
    return new Price(this.cents + other.cents);
  }
}
