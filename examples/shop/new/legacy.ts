import { total } from "./cart";

export const sum = total;
