import { price, discount } from './prices.js';

export const total = (amount) => amount * price - discount;
