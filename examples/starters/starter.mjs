#!/usr/bin/env node
// An agent to start from, in a single file: it needs Node 18 or later, and nothing else.
//
//     node starter.mjs [HOST PORT WORD] [--pause SECONDS] [--again]
//
// It buys each client's preferred trip: the flights at once, and the rooms 50 dollars above the
// quote, again when the quote has reached its bid. Change `play`.
//
// If its link is lost, it tries to reconnect for up to 150 seconds, and then `play` begins anew: so
// `play` has to begin with `own`, or it buys everything twice.
import fs from "node:fs";
import net from "node:net";
import { setTimeout as sleep } from "node:timers/promises";
import { fileURLToPath } from "node:url";
import { parseArgs } from "node:util";

const HOST = "localhost"; // the machine of the game
const PORT = 7000;
const WORD = "seat0"; // your seat word, which is a password
const AGAIN = false; // whether it asks for a seat in the next game too, as in a practice room

const MOST_FOR_A_SEAT = 600; // dollars
const MOST_FOR_A_ROOM = 300; // dollars
const isHotel = (good) => good >= 8 && good < 16; // Shoreline Shanties, and then Tampa Towers

// How many units of each good the clients' preferred trips need.
export function plan(clients) {
  const needs = new Map();
  for (const [arrive, depart, premium] of clients) {
    const first = premium > 100 ? 12 : 8; // night 1 of the hotel that the premium pays for
    const goods = [arrive - 1, depart + 2]; // flights in are 0 to 3, and flights out 4 to 7
    for (let night = arrive; night < depart; night += 1) goods.push(first + night - 1);
    for (const good of goods) needs.set(good, (needs.get(good) ?? 0) + 1);
  }
  return new Map([...needs].sort(([one], [other]) => one - other));
}

// Plays a game to its end.
async function play(link, pause) {
  const needs = plan(link.clients), standing = new Map();
  for (const [good, units] of needs) {
    const { held, points } = await link.own(good);
    if (isHotel(good)) {
      standing.set(good, points.length ? Math.min(...points.map(([, price]) => price)) : 0);
    } else if (units > held) {
      await link.bid(good, units - held, MOST_FOR_A_SEAT);
    }
  }
  while (!(await link.quote(0)).isClosed) {
    for (const [good, before] of standing) {
      const { ask, isClosed } = await link.quote(good);
      const price = Math.min(ask + 50, MOST_FOR_A_ROOM);
      if (!isClosed && before <= ask && before < price) {
        await link.bid(good, needs.get(good), price); // it replaces the earlier bid there
        standing.set(good, price);
      }
    }
    await sleep(1000 * pause);
  }
  const held = [];
  for (const good of needs.keys()) held.push(`${good}:${(await link.own(good)).held}`);
  console.log(`agent ${link.agent} holds ${held.join(" ")}, cash ${await link.cash()}`);
}

// From here on: the link, one reply line for each request line. All of it may stay as it is.
const LIMIT = Number(process.env.AGENT_LIMIT ?? 10) || Infinity; // seconds that a reply may take
const BACK = 150; // seconds for which a lost link is connected again
const PATIENCE = 120; // seconds for which a server that does not listen is tried
const TRY = 15; // seconds that one try to connect again may take
const BETWEEN = 0.5; // seconds between two tries
const now = () => performance.now() / 1000;

class Lost extends Error {} // the link ended, or a reply took too long
class Over extends Error {} // the seat is not to be had any more in this game
class Hopeless extends Error {} // there is no server, or it does not know the word

// A link, which `greet` gives a seat. `agent` is the agent's number, 0 to 7; `clients` has for each
// of its eight clients the days of arrival and of departure, the premium for Tampa Towers, and the
// values of the three tickets.
export class Link {
  constructor(host, port, word) {
    this.word = word;
    this.rest = "";
    this.lines = []; // that came and were not taken
    this.fault = null; // why no more will come
    this.wake = () => {};
    this.socket = net.connect({ host, port: Number(port), noDelay: true, keepAlive: true,
      keepAliveInitialDelay: 5000 });
    this.socket.setEncoding("latin1");
    this.socket.on("data", (text) => {
      const [first, ...others] = text.split("\n");
      this.rest += first;
      for (const other of others) {
        this.lines.push(this.rest);
        this.rest = other;
      }
      this.wake();
    });
    let isConnected = false;
    const end = (fault) => {
      this.fault ??= isConnected ? new Lost(`${word}: the link was closed`) : fault;
      this.wake();
    };
    this.socket.on("connect", () => { isConnected = true; }).on("error", end).on("close", end);
  }

  // Takes the seat, for whose first line it waits so many seconds.
  async greet(within) {
    const first = await this.exchange(`hello ${this.word}`, within);
    if (!first.startsWith("welcome ")) {
      throw new (first === "refused taken" ? Lost : Hopeless)(`${this.word}: ${first}`);
    }
    this.agent = Number(first.split(" ")[1]);
    await this.line(TRY); // the tickets that it has at first
    this.clients = [];
    while (this.clients.length < 8) {
      this.clients.push((await this.line(TRY)).split(" ").slice(3).map(Number));
    }
  }

  send(line) { this.socket.write(`${line}\n`, "latin1"); }

  // The next line that the server sends, for which it waits so many seconds.
  async line(within = LIMIT) {
    const deadline = now() + within;
    while (!this.lines.length) {
      if (this.fault) throw this.fault;
      const left = deadline - now();
      if (left <= 0) throw new Lost(`${this.word}: no reply within ${within} seconds`);
      await new Promise((done) => {
        const timer = left === Infinity ? null : setTimeout(done, 1000 * left);
        this.wake = () => {
          clearTimeout(timer);
          done();
        };
      });
    }
    return this.lines.shift();
  }

  // Sends a request line, and gives its reply line.
  exchange(line, within = LIMIT) {
    this.send(line);
    return this.line(within);
  }

  // Bids for units at a price or less each, below 0 to sell; it replaces the whole earlier bid
  // there. Gives the reply line.
  bid(good, units, price) { return this.exchange(`bid ${good} ((${units} ${price}))`); }

  // The units that the agent has, and what stands there: a list of units and prices.
  async own(good) {
    const [, , held, ...words] = (await this.exchange(`own ${good}`)).split(" ");
    const numbers = (words.join(" ").match(/-?\d+/g) ?? []).map(Number), points = [];
    while (numbers.length) points.push(numbers.splice(0, 2));
    return { held: Number(held), points };
  }

  // The price of a good, and whether its auction is closed.
  async quote(good) {
    const [, , , ask, state] = (await this.exchange(`quote ${good}`)).split(" ");
    return { ask: Number(ask), isClosed: state === "closed" };
  }

  // What the agent earned so far less what it paid, in dollars.
  async cash() { return Number((await this.exchange("cash")).split(" ")[2]); }

  // Leaves the game.
  async quit() {
    await this.exchange("quit");
    this.close();
  }

  close() { this.socket.destroy(); }
}

// Takes the seat, and waits until the game begins; after a lost link, until it is back.
async function seat(LinkOf, host, port, word, lost) {
  let deadline = now() + (lost ? BACK : PATIENCE);
  for (let told = ""; ;) {
    const link = new LinkOf(host, port, word), begun = now();
    let Kind = Over, text;
    try {
      await link.greet(lost ? TRY : Infinity);
      return link;
    } catch (fault) {
      link.close();
      text = fault.message;
      if (fault instanceof Hopeless) throw fault;
      if (!(fault instanceof Lost)) {
        text = `cannot connect to ${host} at port ${port}: ${fault.code ?? fault.message}`;
        if (lost && fault.code === "ECONNREFUSED") throw new Over(lost.message); // it has ended
        if (!lost) Kind = Hopeless;
      }
    }
    // After a link that had waited for its game the time counts anew.
    if (!lost && now() - begun > TRY) deadline = now() + PATIENCE;
    if (now() > deadline) throw new Kind(text);
    if (!lost && text !== told) {
      console.error(`${text}; trying for ${PATIENCE} seconds`);
      told = text;
    }
    await sleep(1000 * BETWEEN);
  }
}

// Plays a game, however often its link is lost.
async function game(playing, LinkOf, host, port, word, pause) {
  for (let lost = null, begun = 0; ;) {
    const link = await seat(LinkOf, host, port, word, lost);
    if (lost) {
      console.error(`${lost.message}; reconnected after ${(now() - begun).toFixed(1)} seconds`);
    }
    try {
      await playing(link, pause);
      await link.quit();
      return;
    } catch (fault) {
      link.close();
      if (!(fault instanceof Lost)) throw fault;
      lost = fault;
      begun = now();
    }
  }
}

// Runs an agent by the words of its command line: it plays a game, or one after the other.
export async function run(playing, LinkOf = Link) {
  const usage = "usage: node AGENT.mjs [HOST PORT WORD] [--pause SECONDS] [--again]";
  const options = { pause: { type: "string", default: "2" }, seed: { type: "string" },
    again: { type: "boolean", default: AGAIN }, help: { type: "boolean", short: "h" } };
  try {
    const { values, positionals } = parseArgs({ allowPositionals: true, options });
    if (values.help) return void console.log(usage);
    if (positionals.length && positionals.length !== 3) throw new Error(usage);
    const [host, port, word] = positionals.length ? positionals : [HOST, PORT, WORD];
    for (;;) {
      try {
        await game(playing, LinkOf, host, port, word, Number(values.pause));
      } catch (fault) {
        if (!(fault instanceof Over) || !values.again) throw fault;
      }
      if (!values.again) return;
      await sleep(1000);
    }
  } catch (fault) {
    console.error(fault.message);
    process.exitCode = 1;
  }
}

const file = process.argv[1] ?? "";
if (fs.existsSync(file) && fs.realpathSync(file) === fileURLToPath(import.meta.url)) {
  await run(play);
}
