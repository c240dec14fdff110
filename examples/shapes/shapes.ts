export interface Point { x: number }
export class Shape { at: Point; move(by: sizes.Size): void {} }
namespace inner { export type Size = number }
import sizes = inner;
export { sizes };
