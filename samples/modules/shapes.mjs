export * from "circle";
export * from "square";
export default function draw(shape) { return shape; }
