// What a masked reader sees: nodes, quads and loops of the exam's mesh, as role 3 reads them. No result is sent here.

const SVG = "http://www.w3.org/2000/svg";
const SIDES = { right: "nasal to the left, temporal to the right", left: "temporal to the left, nasal to the right" };
const part = (name) => document.getElementById(name);
let mesh = { begun: false };

function element(name, attributes) {
  const made = document.createElementNS(SVG, name);
  for (const [key, value] of Object.entries(attributes)) made.setAttribute(key, value);
  return made;
}

function row(name, value) {
  const made = document.createElement("tr");
  const [head, cell] = [document.createElement("th"), document.createElement("td")];
  head.scope = "row";
  head.textContent = name;
  cell.textContent = value;
  made.append(head, cell);
  return made;
}

async function read() {
  const asked = { method: "POST", headers: { "Content-Type": "application/json" }, body: "{}" };
  mesh = await fetch("/masked/mesh", asked).then((answer) => answer.json()).catch(() => ({ begun: false, gone: true }));
  show();
}

function show() {
  if (mesh.begun === false) {
    part("said").textContent = mesh.gone ? "There is no answer: is “sitjorbe draw” still running?" : "No exam was begun.";
    for (const name of ["tally", "mesh", "picked", "corners"]) part(name).replaceChildren();
    part("loop-said").textContent = "";
    return;
  }
  part("said").textContent = mesh.eye === null ? "The exam's mesh:" : `The exam's mesh, ${mesh.eye} eye: ${SIDES[mesh.eye]}.`;
  part("tally").replaceChildren(row("Nodes", mesh.nodes.length), row("Quads", mesh.quads.length), row("Loops of the front", mesh.loops.length));
  draw();
  pick();
}

function ring(ids) {
  return ids.length === 0 ? "" : `M${ids.map((id) => `${mesh.nodes[id][0]},${-mesh.nodes[id][1]}`).join("L")}Z`;
}

function draw() {
  const reach = 1.08 * mesh.nodes.reduce((most, [x, y]) => Math.max(most, Math.abs(x), Math.abs(y)), 1);
  part("surface").setAttribute("viewBox", `${-reach} ${-reach} ${2 * reach} ${2 * reach}`);
  part("mesh").replaceChildren(
    element("path", { class: "masked-quads", d: mesh.quads.map(ring).join("") }), element("path", { class: "masked-front", d: mesh.loops.map(ring).join("") }),
    element("path", { class: "node", d: mesh.nodes.map(([x, y]) => `M${x},${-y}h0`).join("") }),
  );
  part("grid").replaceChildren(element("path", { class: "fixation", d: `M${-reach / 40},0h${reach / 20}M0,${-reach / 40}v${reach / 20}` }));
}

function pick() {
  if (mesh.begun === false) return;
  const quad = mesh.quads[Number(part("quad").value)] ?? null;
  const loop = mesh.loops[Number(part("loop").value)] ?? [];
  const corner = (id) => row(`Node ${id}, of loop ${mesh.origins[id]}`, mesh.nodes[id].map((value) => value.toFixed(3)).join(", "));
  part("corners").replaceChildren(...(quad === null ? [row("There is no such quad", "")] : quad.map(corner)));
  part("loop-said").textContent = loop.length === 0 ? "There is no such loop." : `${loop.length} nodes: ${loop.join(", ")}`;
  part("picked").replaceChildren(element("path", { class: "masked-picked", d: quad === null ? "" : ring(quad) }), element("path", { class: "masked-loop", d: ring(loop) }));
}

/** The quad under a press. */
function press(event) {
  const at = new DOMPoint(event.clientX, event.clientY).matrixTransform(part("surface").getScreenCTM().inverse());
  const turns = (quad) => quad.every((id, k) => {
    const [[ax, ay], [bx, by]] = [mesh.nodes[id], mesh.nodes[quad[(k + 1) % 4]]];
    return (bx - ax) * (-at.y - ay) - (by - ay) * (at.x - ax) >= 0;
  });
  const found = mesh.begun === false ? -1 : mesh.quads.findIndex(turns);
  if (found >= 0) part("quad").value = found;
  pick();
}

part("again").addEventListener("click", read);
part("surface").addEventListener("click", press);
for (const name of ["quad", "loop"]) part(name).addEventListener("input", pick);
read();
