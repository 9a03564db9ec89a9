// A file that shows one picture: the viewer, and a scene that is packed into the file.
import { $, save, unpacked } from './dom.js';
import { cutAlong } from './opened.js';
import { readScene } from './scene.js';
import { shapeOf } from './shape.js';
import { MOST_UNFOLDED, unfolding } from './unfold.js';
import { plural, shownLength } from './units.js';
import { Viewer } from './viewer.js';
import { walkOf } from './walks.js';

/** For so many milliseconds the disc is laid in the plane before the picture may be turned in between. */
const AT_ONCE = 20;

/** The mesh without its hidden faces, and of each face that is left the number that it had. */
function seenPart({ starts, corners, ...mesh }, hidden) {
  const gone = new Set(hidden), seen = [...starts.keys()].slice(0, -1).filter((face) => !gone.has(face));
  const kept = { starts: new Uint32Array(seen.length + 1), corners: new Uint32Array(corners.length) };
  seen.forEach((face, k) => {
    kept.corners.set(corners.subarray(starts[face], starts[face + 1]), kept.starts[k]);
    kept.starts[k + 1] = kept.starts[k] + starts[face + 1] - starts[face];
  });
  return { part: { ...mesh, ...kept, corners: kept.corners.slice(0, kept.starts[seen.length]) }, seen };
}

/** What is drawn of a mesh; faces keep their numbers where some are hidden. */
function shapeWithout(mesh, hidden) {
  if (!hidden.length) return shapeOf(mesh);
  const { part, seen } = seenPart(mesh, hidden), shape = shapeOf(part), { starts, corners } = mesh;
  return { ...shape, faces: shape.faces.map((face) => seen[face]), starts, corners };
}

/** The edges whose ends both are vertices of what is drawn, which those of a hub aren't. */
function seenEdges(ends, { triangles }) {
  const seen = new Set(triangles);
  return ends.filter((_, k) => seen.has(ends[k - (k % 2)]) && seen.has(ends[k - (k % 2) + 1]));
}

/** A line of the scene as a row of the list. */
function rowOf({ vertices, isWalk, units, decimals }, isSeams, shape) {
  if (isWalk) return walkOf([...vertices], units, decimals);
  const count = plural(vertices.length / 2, 'edge');
  const title = isSeams ? `${count} cut` : `${count} that the walk crosses oddly`;
  return { edges: seenEdges(vertices, shape), vertices: [], title };
}

/** What the picture shows, in words. */
function wordsOf({ isCut, lines, marked }) {
  if (isCut) return `A disc, cut along ${plural(lines[0].vertices.length / 2, 'edge')}`;
  if (marked.length) return `A walk that bounds ${plural(marked.length, 'face')}`;
  const walks = lines.filter(({ isWalk }) => isWalk);
  if (lines.length > walks.length) return 'A walk that bounds no set of faces';
  return walks.length ? plural(walks.length, 'closed walk') : 'The mesh';
}

/** The counts of the mesh, and the total length of the walks where all are told in the same units. */
function factsOf({ mesh, hidden, lines }, shape) {
  const vertices = new Set(shape.triangles).size, edges = shape.edges.length / 2, faces = mesh.starts.length - 1;
  const rows = [['vertices', vertices], ['edges', edges], ['faces', faces - hidden.length]];
  if (!hidden.length) rows.push(['characteristic', vertices - edges + faces]);
  const walks = lines.filter(({ isWalk }) => isWalk), [{ decimals } = {}] = walks;
  const isAlike = walks.length > 1 && walks.every((walk) => walk.decimals === decimals);
  const total = walks.reduce((sum, { units }) => sum + units, 0);
  return isAlike ? [...rows, ['total length', shownLength(total, decimals)]] : rows;
}

function show(scene, viewer) {
  const { mesh, hidden, lines, isCut, marked, values, title } = scene, shape = shapeWithout(mesh, hidden);
  const words = wordsOf(scene);
  viewer.view.camera.home = scene.turn;
  viewer.showMesh(shape, title);
  if (values) viewer.showValues(values);
  viewer.showFacts(factsOf(scene, shape));
  viewer.showWalks(lines.map((line, k) => rowOf(line, isCut && k === 0, shape)));
  viewer.mark({ faces: [...marked] });
  viewer.describe(`${title}: ${words}`);
  viewer.view.pick = (vertex) => { $('said').textContent = `Vertex ${vertex}`; };
  $('said').textContent = words;
}

/** Takes all steps of a generator, with pauses in which the user can turn the picture; answers what it comes to. */
async function finished(steps) {
  for (let since = performance.now(); ;) {
    const { done, value } = steps.next();
    if (done) return value;
    if (performance.now() - since > AT_ONCE) {
      await new Promise((go) => setTimeout(go));
      since = performance.now();
    }
  }
}

/** Lays the disc of a cut in the plane. */
async function showUnfolded(scene, viewer) {
  const opened = cutAlong(scene.mesh, scene.lines[0].vertices);
  if (opened.disc.points.length / 3 <= MOST_UNFOLDED) {
    viewer.showDisc({ ...(await finished(unfolding(opened))), round: opened.round });
  } else $('said').textContent = `${wordsOf(scene)}. It has too many vertices to be laid in the plane`;
}

/** Unpacks the scene and shows it. In the address `#plain` leaves WebGL aside. */
async function begin() {
  const viewer = new Viewer(location.hash === '#plain'), scene = readScene(await unpacked('scene'));
  show(scene, viewer);
  $('picture').onclick = async () => save(await viewer.view.picture(), 'picture.png');
  if (scene.isCut) setTimeout(() => showUnfolded(scene, viewer)); // the surface is seen before
}

begin().catch((fault) => { $('said').textContent = `This browser can't show it: ${fault.message}`; });
