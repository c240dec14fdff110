// Strongly connected parts of a directed graph, the shortest cycle in one, and the edge that opens most of it. Nodes are numbers from 0.

/** @typedef {number[][]} Edges where each node leads, each other node once */

/** How many edges may be walked to look for the edge to cut in one part. */
const BUDGET = 20_000_000;

/**
 * The parts in which each node leads to each other, by Tarjan's search with a stack of its own.
 * @param {Edges} edges
 * @param {(from: number, to: number) => boolean} [isOpen] whether an edge counts
 * @returns {number[][]} those of two nodes or more, and nodes that lead to themselves
 */
export function cyclicParts(edges, isOpen = () => true) {
  const { length } = edges;
  const [index, low, next] = [new Int32Array(length).fill(-1), new Int32Array(length), new Int32Array(length)];
  const onStack = new Uint8Array(length);
  /** @type {number[]} */
  const stack = [];
  /** @type {number[][]} */
  const found = [];
  let count = 0;
  const enter = (/** @type {number} */ it) => {
    index[it] = low[it] = count++;
    stack.push(it);
    onStack[it] = 1;
  };
  const leave = (/** @type {number} */ it) => {
    if (low[it] !== index[it]) return;
    const part = stack.splice(stack.lastIndexOf(it));
    for (const node of part) onStack[node] = 0;
    if (part.length > 1 || (edges[it].includes(it) && isOpen(it, it))) found.push(part);
  };
  for (let root = 0; root < length; root++) {
    if (index[root] < 0) walk(root, edges, isOpen, { index, low, next, onStack, enter, leave });
  }
  return found;
}

/** @param {number} root @param {Edges} edges @param {(from: number, to: number) => boolean} isOpen @param {any} at the state of the search */
function walk(root, edges, isOpen, { index, low, next, onStack, enter, leave }) {
  const path = [root];
  enter(root);
  while (path.length > 0) {
    const node = path[path.length - 1];
    if (next[node] < edges[node].length) {
      const to = edges[node][next[node]++];
      if (!isOpen(node, to)) continue;
      if (index[to] < 0) {
        enter(to);
        path.push(to);
      } else if (onStack[to]) low[node] = Math.min(low[node], index[to]);
    } else {
      path.pop();
      const above = path[path.length - 1];
      if (above !== undefined) low[above] = Math.min(low[above], low[node]);
      leave(node);
    }
  }
}

/**
 * The part as a graph of its own.
 * @param {Edges} edges
 * @param {number[]} part
 * @returns {Edges} with the part's nodes in its order
 */
export function partOf(edges, part) {
  const number = new Map(part.map((it, i) => [it, i]));
  return part.map((it) => edges[it].flatMap((to) => number.get(to) ?? []));
}

/**
 * @param {Edges} edges
 * @param {number} from
 * @param {number} goal
 * @param {number} limit
 * @param {(it: number) => boolean} isGone of nodes that don't count
 * @returns {{ path: number[] | null, walked: number }} a shortest path from the one to the other, without the goal itself, where it has fewer
 *   edges than the limit; and how many nodes were met
 */
function pathBetween(edges, from, goal, limit, isGone) {
  const before = new Map([[from, -1]]);
  let edge = [from];
  for (let length = 1; length < limit && edge.length > 0; length++) {
    /** @type {number[]} */
    const after = [];
    for (const node of edge) {
      for (const to of edges[node]) {
        if (to === goal) return { path: pathTo(node, before), walked: before.size };
        if (isGone(to) || before.has(to)) continue;
        before.set(to, node);
        after.push(to);
      }
    }
    edge = after;
  }
  return { path: null, walked: before.size };
}

/** @param {number} node @param {Map<number, number>} before @returns {number[]} from the first on */
function pathTo(node, before) {
  const path = [];
  for (let at = node; at >= 0; at = before.get(at) ?? -1) path.push(at);
  return path.reverse();
}

/** @param {Edges} edges @returns {number[] | null} a cycle of one node or two */
function tinyCycle(edges) {
  const alone = edges.findIndex((it, i) => it.includes(i));
  if (alone >= 0) return [alone];
  const all = new Set(edges.flatMap((list, from) => list.map((to) => from * edges.length + to)));
  for (let from = 0; from < edges.length; from++) {
    const to = edges[from].find((it) => all.has(it * edges.length + from));
    if (to !== undefined) return [from, to];
  }
  return null;
}

/** @param {Edges} edges @param {(from: number, to: number) => boolean} isMarked @returns {Edges} with each node twice: before a marked edge and after it */
function doubled(edges, isMarked) {
  const { length } = edges;
  const before = edges.map((list, from) => list.map((to) => (isMarked(from, to) ? to + length : to)));
  return [...before, ...edges.map((list) => list.map((to) => to + length))];
}

/**
 * A shortest cycle, by a search from each node, which goes then. What is in no cycle without those goes too, as often as the searches took
 * as long as finding that does.
 * @param {Edges} edges of a strongly connected part
 * @param {((from: number, to: number) => boolean) | null} [isMarked] an edge that the cycle has to have one of; there is one
 * @returns {number[]} nodes, each of which leads to the next one, and the last to the first
 */
export function shortestCycle(edges, isMarked = null) {
  const tiny = isMarked ? null : tinyCycle(edges);
  if (tiny) return tiny;
  const { length } = edges;
  const [all, least, goal] = isMarked ? [doubled(edges, isMarked), 1, length] : [edges, 3, 0];
  const gone = new Uint8Array(length);
  const order = edges.map((_, i) => i).sort((a, b) => edges[b].length - edges[a].length);
  /** @type {number[]} */
  let best = [];
  let walked = 0;
  for (const hub of order) {
    if (gone[hub]) continue;
    const found = pathBetween(all, hub, hub + goal, best.length || Infinity, (it) => gone[it % length] === 1);
    best = found.path ?? best;
    if (best.length === least) break;
    gone[hub] = 1;
    walked += found.walked;
    if (walked < length) continue;
    walked = 0;
    const open = new Set(cyclicParts(edges, (from, to) => !gone[from] && !gone[to]).flat());
    for (let i = 0; i < length; i++) if (!open.has(i)) gone[i] = 1;
  }
  return best.map((it) => it % length);
}

/** @typedef {{ from: number, to: number, opened: number, isSure: boolean }} Cut how many nodes are in no cycle without the edge; whether no other edge opens more */

/**
 * The edge without which most nodes are in no cycle any more.
 * @param {Edges} edges of a strongly connected part
 * @param {number[]} cycle a shortest one: only what is on each cycle opens all
 * @returns {Cut}
 */
export function bestCut(edges, cycle) {
  const onCycle = cycle.map((from, i) => /** @type {[number, number]} */ ([from, cycle[(i + 1) % cycle.length]]));
  const others = edges.flatMap((list, from) => list.map((to) => /** @type {[number, number]} */ ([from, to])));
  const known = new Set(onCycle.map(([from, to]) => from * edges.length + to));
  const all = [...onCycle, ...others.filter(([from, to]) => !known.has(from * edges.length + to))];
  const cost = edges.length + others.length;
  let best = { from: all[0][0], to: all[0][1], opened: -1 };
  let spent = 0;
  for (const [from, to] of all) {
    if (best.opened === edges.length) break;
    spent += cost;
    if (spent > BUDGET && best.opened >= 0) return { ...best, isSure: false };
    const left = cyclicParts(edges, (a, b) => a !== from || b !== to);
    const opened = edges.length - left.reduce((sum, it) => sum + it.length, 0);
    if (opened > best.opened) best = { from, to, opened };
  }
  return { ...best, isSure: true };
}
