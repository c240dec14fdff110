export * from "./shapes.ts";
export { Shape as Form } from "./shapes.ts";
import { Point } from "./shapes.ts";
export const origin: Point = { x: 0 };
export * from "./gone.ts";
