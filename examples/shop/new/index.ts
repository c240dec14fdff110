export { total } from "./cart";
export type { Price } from "./price";
export type { Item } from "./item";
