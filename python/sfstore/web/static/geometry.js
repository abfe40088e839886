// Geometries as the server sends them: the code of a kind, and members of lists of coordinates,
// [[[x, y, x, y, ..], ..], ..]. A polygon is one member with its rings.

export const KINDS = ["any", "point", "linestring", "polygon", "multipoint", "multilinestring", "multipolygon"];
export const GRID_MIN = -1073741824;
export const GRID_MAX = 1073741823;

export const isArea = (code) => code === 3 || code === 6;
const isPoints = (code) => code === 1 || code === 4;

/** The least box with a geometry: least x and y, greatest x and y. */
export function boxOf(members) {
  const box = [Infinity, Infinity, -Infinity, -Infinity];
  for (const line of members.flat()) {
    for (let at = 0; at < line.length; at += 2) {
      box[0] = Math.min(box[0], line[at]);
      box[1] = Math.min(box[1], line[at + 1]);
      box[2] = Math.max(box[2], line[at]);
      box[3] = Math.max(box[3], line[at + 1]);
    }
  }
  return box;
}

/** Whether a place lies in a box, or within a reach of it. */
export function isInBox([left, bottom, right, top], x, y, reach) {
  return x >= left - reach && x <= right + reach && y >= bottom - reach && y <= top + reach;
}

/** Whether a geometry has a point in a box. */
export function meetsBox(code, members, own, box) {
  if (isWithin(box, own)) return true;
  if (own[0] > box[2] || own[2] < box[0] || own[1] > box[3] || own[3] < box[1]) return false;
  const lines = members.flat();
  if (lines.some((line) => hasEdgeIn(line, box))) return true;
  return isArea(code) && lines.filter((line) => isInside(line, box[0], box[1])).length % 2 === 1;
}

/** Whether an edge of a line, or its one point, has a point in a box. */
function hasEdgeIn(line, box) {
  if (line.length === 2) return isInBox(box, line[0], line[1], 0);
  for (let at = 2; at < line.length; at += 2) if (crossesBox(line[at - 2], line[at - 1], line[at], line[at + 1], box)) return true;
  return false;
}

/** Whether an edge has a point in a box: what is left of it between the sides, one axis after the other. */
function crossesBox(ax, ay, bx, by, [left, bottom, right, top]) {
  let [from, to] = [0, 1];
  for (const [start, end, least, most] of [[ax, bx, left, right], [ay, by, bottom, top]]) {
    if (start === end && (start < least || start > most)) return false;
    if (start === end) continue;
    const [one, other] = [(least - start) / (end - start), (most - start) / (end - start)];
    from = Math.max(from, Math.min(one, other));
    to = Math.min(to, Math.max(one, other));
  }
  return from <= to;
}

/** Whether a box lies in another one. */
export function isWithin([left, bottom, right, top], inner) {
  return inner[0] >= left && inner[1] >= bottom && inner[2] <= right && inner[3] <= top;
}

/** The path of a geometry, where `place` tells where a point of the grid is drawn. */
export function pathOf(code, members, place) {
  let path = "";
  for (const line of members.flat()) {
    for (let at = 0; at < line.length; at += 2) {
      path += (at === 0 || isPoints(code) ? "M" : "L") + place(line[at], line[at + 1]).join(" ");
      if (isPoints(code)) path += "h0";
    }
    if (isArea(code)) path += "Z";
  }
  return path;
}

/** The vertices of a geometry, as the console's `vertex` commands number them. */
export function verticesOf(code, members) {
  const found = [];
  members.forEach((member, part) =>
    member.forEach((line, ring) => {
      const count = line.length / 2 - (isArea(code) ? 1 : 0);
      for (let index = 0; index < count; index++) {
        const numbers = code === 4 ? { part: 0, ring: 0, index: part } : { part, ring, index };
        found.push({ ...numbers, x: line[2 * index], y: line[2 * index + 1] });
      }
    }),
  );
  return found;
}

/** The middles of the edges of a geometry, with the numbers that a vertex would get there, and how long the edges are. */
export function middlesOf(code, members) {
  const found = [];
  if (isPoints(code)) return found;
  members.forEach((member, part) =>
    member.forEach((line, ring) => {
      for (let at = 2; at < line.length; at += 2) {
        const x = Math.round((line[at - 2] + line[at]) / 2);
        const y = Math.round((line[at - 1] + line[at + 1]) / 2);
        const length = Math.hypot(line[at] - line[at - 2], line[at + 1] - line[at - 1]);
        found.push({ part, ring, index: at / 2, x, y, length });
      }
    }),
  );
  return found;
}

/** The members of a geometry with a vertex moved, or inserted. */
export function withVertex(code, members, { part, ring, index }, isNew, x, y) {
  const changed = structuredClone(members);
  if (code === 4) {
    changed[index][0] = [x, y];
    return changed;
  }
  const line = changed[part][ring];
  if (isArea(code)) line.length -= 2;
  line.splice(2 * index, isNew ? 0 : 2, x, y);
  if (isArea(code)) line.push(line[0], line[1]);
  return changed;
}

/** Whether a place is within a reach of a geometry, or inside of it. */
export function isHit(code, members, x, y, reach) {
  const lines = members.flat();
  if (lines.some((line) => isNearLine(line, x, y, reach))) return true;
  return isArea(code) && lines.filter((line) => isInside(line, x, y)).length % 2 === 1;
}

function isNearLine(line, x, y, reach) {
  for (let at = 0; at < line.length; at += 2) {
    const [nearX, nearY] = nearestOnEdge(line, at, x, y);
    if (Math.hypot(nearX - x, nearY - y) <= reach) return true;
  }
  return false;
}

/** The point nearest to a place on the edge that begins at a place of a line. */
export function nearestOnEdge(line, at, x, y) {
  const [ax, ay] = [line[at], line[at + 1]];
  const [bx, by] = at + 2 < line.length ? [line[at + 2], line[at + 3]] : [ax, ay];
  const square = (bx - ax) ** 2 + (by - ay) ** 2;
  const part = square ? ((x - ax) * (bx - ax) + (y - ay) * (by - ay)) / square : 0;
  const kept = Math.min(1, Math.max(0, part));
  return [ax + kept * (bx - ax), ay + kept * (by - ay)];
}

function isInside(ring, x, y) {
  let inside = false;
  for (let at = 2; at < ring.length; at += 2) {
    const [ax, ay, bx, by] = ring.slice(at - 2, at + 2);
    if (ay > y !== by > y && x < ((bx - ax) * (y - ay)) / (by - ay) + ax) inside = !inside;
  }
  return inside;
}

/** The well-known text of points that were drawn as a point, a line or a polygon. */
export function wktOf(tool, points, units, isMulti) {
  const text = (list) => "(" + list.map((point) => units.point(point)).join(", ") + ")";
  const around = (inner) => (isMulti ? `(${inner})` : inner);
  const word = isMulti ? "MULTI" : "";
  if (tool === "point") return `${word}POINT ${around(text(points))}`;
  if (tool === "line") return `${word}LINESTRING ${around(text(points))}`;
  return `${word}POLYGON ${around(`(${text([...points, points[0]])})`)}`;
}

/** A box as a polygon. */
export function rectangle([left, bottom, right, top]) {
  return [[left, bottom], [right, bottom], [right, top], [left, top]];
}

/** A place on the grid, the nearest to a place of the plane. */
export function onGrid(x, y) {
  const kept = (value) => Math.min(GRID_MAX, Math.max(GRID_MIN, Math.round(value)));
  return [kept(x), kept(y)];
}
