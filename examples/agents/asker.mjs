#!/usr/bin/env node
// An agent that sends JSON, for a server that was started by `tac serve GAME PORT PACE json`:
//
//     node examples/agents/asker.mjs HOST PORT WORD [--pause SECONDS] [--again]
//
// It buys the trip of its first client: both seats at once, and a room for each night, for which it
// bids again when the quote has reached its bid. When the game is over it prints its holdings, and
// ends. It needs Node 18 or later, and `../starters/starter.mjs`, whose link reconnects.
import fs from "node:fs";
import path from "node:path";
import { setTimeout as sleep } from "node:timers/promises";
import { Link, plan, run } from "../starters/starter.mjs";

const MOST_FOR_A_SEAT = 600; // dollars
const MOST_FOR_A_ROOM = 300; // dollars
const SIDES = ["asked", "said"]; // of a link

// The record of a link, if the variable AGENT_RECORD names a folder: the bytes that were sent and
// received, in the files WORD.asked and WORD.said, or WORD.2.asked and WORD.2.said if one of them
// exists already, and so on. A line is written before it is sent. If a file cannot be written, the
// agent reports it in a line, and keeps nothing more.
class LinkRecord {
  constructor(folder) {
    this.folder = folder;
    this.files = {};
    this.held = { asked: [], said: [] }; // until the link has its seat
  }

  // The link has its seat: the files are made, with what was sent and came so far.
  seat(word) {
    this.attempt(() => {
      fs.mkdirSync(this.folder, { recursive: true });
      const file = (name, side) => path.join(this.folder, `${name}.${side}`);
      let name = word;
      for (let number = 2; SIDES.some((side) => fs.existsSync(file(name, side))); number += 1) {
        name = `${word}.${number}`;
      }
      const { held } = this;
      this.held = undefined;
      for (const side of SIDES) {
        this.files[side] = file(name, side);
        const how = { flag: "wx", mode: 0o600 }; // it has the word, which is a password
        fs.writeFileSync(this.files[side], Buffer.concat(held[side]), how);
      }
    });
  }

  // Bytes that are about to be sent (`asked`), or that came (`said`).
  keep(side, bytes) {
    this.attempt(() => {
      if (this.held) this.held[side].push(bytes);
      else fs.appendFileSync(this.files[side], bytes);
    });
  }

  attempt(work) {
    try {
      if (this.folder) work();
    } catch (error) {
      this.folder = "";
      console.error(`asker.mjs: ${error.message}: the agent plays on without its record`);
    }
  }
}

// A link whose requests and replies are JSON objects, and whose bytes are kept.
class JsonLink extends Link {
  constructor(host, port, word) {
    super(host, port, word);
    this.record = new LinkRecord(process.env.AGENT_RECORD);
    this.socket.on("data", (text) => this.record.keep("said", Buffer.from(text, "latin1")));
  }

  send(line) {
    this.record.keep("asked", Buffer.from(`${line}\n`, "latin1"));
    super.send(line);
  }

  // Admission is in lines of words for every agent.
  async greet(within) {
    await super.greet(within);
    this.record.seat(this.word);
  }

  // Sends a request, and gives its reply. If the server had no memory to read the line, nothing was
  // asked, and it is sent again.
  async ask(request) {
    for (;;) {
      const reply = JSON.parse(await this.exchange(JSON.stringify(request)));
      if (reply.no !== "memory") return reply;
    }
  }

  bid(auction, units, price) {
    return this.ask({ do: "bid", auction, points: [[units, price]] });
  }

  async own(auction) {
    const { own, points } = await this.ask({ do: "own", auction });
    return { held: own, points };
  }

  async quote(auction) {
    const { quote, open } = await this.ask({ do: "quote", auction });
    return { ask: quote[1], isClosed: !open };
  }

  async cash() { return (await this.ask({ do: "cash" })).cash; }

  async quit() {
    await this.ask({ do: "quit" });
    this.close();
  }
}

// Bids for the rooms whose quote has reached the standing bid. `standing` has the dollars of the
// standing bids.
async function bidForRooms(link, standing) {
  for (const [room, before] of standing) {
    const { ask, isClosed } = await link.quote(room);
    const price = Math.min(ask + 50, MOST_FOR_A_ROOM);
    if (!isClosed && before <= ask && before < price) {
      await link.bid(room, 1, price);
      standing.set(room, price);
    }
  }
}

// Plays a game to its end, from what the seat has.
async function play(link, pause) {
  const goods = [...plan(link.clients.slice(0, 1)).keys()], standing = new Map();
  for (const good of goods) {
    const { held, points } = await link.own(good);
    if (good >= 8) standing.set(good, points.length ? points[0][1] : 0);
    else if (!held) await link.bid(good, 1, MOST_FOR_A_SEAT);
  }
  while (!(await link.quote(0)).isClosed) {
    await bidForRooms(link, standing);
    await sleep(1000 * pause);
  }
  const held = [];
  for (const good of goods) held.push((await link.own(good)).held);
  const cash = await link.cash();
  console.log(`agent ${link.agent} holds ${held.join(" ")} of the goods ${goods.join(" ")}, `
    + `cash ${cash}`);
}

await run(play, JsonLink);
