export { total, currency } from "./cart";
export { Price } from "./cart";
export type { Item } from "./item";
