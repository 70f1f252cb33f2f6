// What live-air.c does, by node over a module:
//
//   node live-air.mjs MODULE hear PIECE
//   node live-air.mjs MODULE combine FAMILIES PIECE
//   node live-air.mjs MODULE sendings FAMILIES
//   node live-air.mjs MODULE resume STATE NEW
//   node live-air.mjs MODULE entries
//   node live-air.mjs MODULE speed PIECE TIMES
import { readFileSync, writeFileSync, writeSync } from "node:fs";
import { Receiver } from "./receiver.mjs";

const [module, call, first, second] = process.argv.slice(2);
const combines = call === "combine" || call === "sendings";
const receiver = await Receiver.of(readFileSync(module), combines ? Number(first) : 0);

function writeOut(entries) {
  for (const entry of entries) writeSync(1, entry);
}

// entries that a channel handed out
function put(channel, entries) {
  if (call !== "sendings") writeOut(entries);
  else for (const _ of entries) writeSync(1, `${receiver.sendings(channel)}\n`);
}

function elementsOf(digits) {
  return Uint8Array.from(digits, (digit) => digit.charCodeAt(0) - 48);
}

function give(line, piece) {
  const [, letters, channel, value] = /^(T|B|RS|AS|RJ|AJ)([012]?) (.*)$/.exec(line);
  if (letters === "T") return receiver.setMoment(value);
  if (letters !== "B")
    return receiver.select(Number(channel), letters[0] === "R" ? "refuse" : "accept",
      letters[1] === "S" ? "station" : "subject", value);
  const elements = elementsOf(value);
  for (let at = 0; at < elements.length; at += piece)
    put(Number(channel), receiver.hear(Number(channel), elements.subarray(at, at + piece)));
}

function giveFile(piece) {
  for (const line of readFileSync(0, "latin1").split("\n").slice(0, -1)) give(line, piece);
}

function speed(piece, times) {
  const elements = elementsOf(readFileSync(0, "latin1").replace(/[^01]/g, ""));
  receiver.open(0);
  const hearAll = (passes) => {
    for (let pass = 0; pass < passes; pass++)
      for (let at = 0; at < elements.length; at += piece) receiver.hear(0, elements.subarray(at, at + piece));
  };
  hearAll(times / 10); // until the engine has compiled it
  const began = process.cpuUsage();
  hearAll(times);
  const { user } = process.cpuUsage(began);
  console.log(`${((user * 1000) / elements.length / times).toFixed(2)} ns an element`);
}

function two(number) {
  return String(number).padStart(2, "0");
}

function entries() {
  let log = readFileSync(0);
  while (log.length > 0) {
    const { channel, errors, how, length, moment, number, station, subject, text } = receiver.entryOf(log);
    const mark = channel > 0 ? `/${channel}` : "";
    const time = new Date(moment * 1000).toISOString().slice(0, 19).replace("T", " ");
    const head = `[${station}${subject}${two(number)}${mark} ${time} ${how} ${errors}/${text.length}]\n`;
    writeSync(1, Buffer.concat([Buffer.from(head), text, log.subarray(head.length + text.length, length)]));
    log = log.subarray(length);
  }
}

if (call === "speed") {
  speed(Number(first), Number(second));
} else if (call === "entries") {
  entries();
} else {
  if (call === "resume") receiver.openFrom(readFileSync(first));
  else receiver.open(0);
  giveFile(call === "hear" ? Number(first) : call === "combine" ? Number(second) : 7);
  if (call === "resume") writeFileSync(second, receiver.save());
  const entries = receiver.close();
  if (call !== "sendings") writeOut(entries);
}
