import draw, { area, Square, perimeter } from "shapes";
import * as circle from "circle";
import { readFile } from "fs";

draw(new Square(circle.PI));
