// Makes the games of a run again by docs/FORMATS.md alone, as somebody without this package would.
//
//     node made_again.mjs FOLDER
//
// FOLDER is that of a run that is over. A line tells each game file that is not the one of the
// secret; the exit status is 0 if there is none.

import { createHash, createHmac } from "node:crypto";
import { readdirSync, readFileSync } from "node:fs";

const folder = process.argv[2];
const { deals, settings } = JSON.parse(readFileSync(`${folder}/run.json`, "utf8"));
const secret = Buffer.from(deals.secret, "hex");
const digest = text => createHash("sha256").update(text).digest();
const numbers = count => [...Array(count).keys()];

function seedOf(number) { // "Secret deals"
  return createHmac("sha256", secret).update(`deal ${number}`).digest().readBigUInt64BE();
}

function wordsFrom(seed) { // PCG32 with the stream 54
  const whole = number => BigInt.asUintN(64, number), increment = 2n * 54n + 1n;
  const next = state => whole(state * 6364136223846793005n + increment);
  let state = whole(seed + increment);
  return () => {
    state = next(state);
    const word = BigInt.asUintN(32, (state >> 18n ^ state) >> 27n), turn = state >> 59n;
    return Number(BigInt.asUintN(32, word >> turn | word << (32n - turn) % 32n));
  };
}

function classic(seed) { // "Classic endowments"
  const endow = numbers(8).map(() => Array(12).fill(0));
  const shuffled = (text, count) => numbers(count)
    .map(number => [digest(`${text} ${number}`), number])
    .sort(([one], [other]) => Buffer.compare(one, other)).map(([, number]) => number);
  for (const [side, nights] of [[0, [1, 4]], [1, [2, 3]]]) {
    let four, two, attempt = 0;
    do {
      const f = shuffled(`tickets ${seed} ${side} ${attempt} four`, 12);
      const t = shuffled(`tickets ${seed} ${side} ${attempt} two`, 8);
      four = f.slice(0, 8);
      two = t.map(place => f[8 + Math.floor(place / 2)]);
      attempt += 1;
    } while (four.some((place, agent) => place % 3 === two[agent] % 3));
    for (const [places, units] of [[four, 4], [two, 2]]) places.forEach((place, agent) => {
      endow[agent][4 * (place % 3) + nights[Math.floor(place / 3) % 2] - 1] += units;
    });
  }
  return endow;
}

function madeGame(seed, seats) { // "Generated games" and "Game file"
  const r = wordsFrom(seed);
  const flights = numbers(8).map(flight => [
    "flight", flight, 250 + r() % 151, r() % 41 - 10, ...numbers(53).map(() => r())]);
  const close = numbers(8).map(place => 8 + place);
  for (let i = 7; i > 0; i -= 1) {
    const other = r() % (i + 1);
    [close[i], close[other]] = [close[other], close[i]];
  }
  const drawn = numbers(8).map(() => numbers(12).map(() => r() % 3));
  const trips = [[1, 2], [1, 3], [1, 4], [1, 5], [2, 3], [2, 4], [2, 5], [3, 4], [3, 5], [4, 5]];
  const clients = numbers(64).map(place => [
    "client", Math.floor(place / 8), place % 8, ...trips[r() % 10], 50 + r() % 101,
    r() % 201, r() % 201, r() % 201]);
  const endow = settings.endow === "classic" ? classic(seed) : drawn;
  const [low, high] = settings.rooms.split("..").map(Number);
  const isSecond = settings.live === "true" || settings.rooms !== "16..16";
  const rooms = numbers(8).map(night =>
    low + Number(digest(`rooms ${seed} ${night}`).readBigUInt64BE() % BigInt(high - low + 1)));
  const lines = [
    ["tac", isSecond ? 2 : 1], seats, ...flights, ["close", ...close],
    ...(isSecond ? [["rooms", ...rooms],
                    ["quotes", settings.live === "true" ? "live" : "minute"]] : []),
    ...endow.map((units, agent) => ["endow", agent, ...units]), ...clients, ["end"]];
  return lines.map(words => `${words.join(" ")}\n`).join("");
}

let wrong = digest(secret).toString("hex") === deals.commitment ? 0 : 1;
if (wrong) console.log("the secret is not the one of the commitment");
for (const name of readdirSync(`${folder}/games`).filter(each => each.endsWith(".game")).sort()) {
  const text = readFileSync(`${folder}/games/${name}`, "latin1");
  const seats = text.split("\n")[1].split(" "); // nobody draws these
  if (madeGame(seedOf(name.split(".")[0]), seats) !== text) {
    console.log(`${name} is not the game of the secret`);
    wrong += 1;
  }
}
process.exit(wrong ? 1 : 0);
