let total = 1;
function sum(list: number[]) {
  let total = 0;
  for (const each of list) total += each;
  return { total };
}
type Total = typeof total;
const { length: size = total } = [sum] as Total[] | Function[];
export { size, sum };
