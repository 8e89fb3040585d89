export const price = 12;
export const discounts = [0, 1];
