#!/usr/bin/env node
// A bot that prints its dispatches, loses its link twice on purpose and resumes: plain.mjs URL TOKEN INTENTS [DROP..]
//
// As plain.py does: it drops its link after the dispatches with the numbers DROP (6 and 25), stays away for half a second,
// and resumes. When each of its guilds has the name `end`, it closes. Status 0 if no dispatch was lost or came twice.
// Node 20 has no WebSocket of its own, so a small one stands here, over `net`.
import { createHash, randomBytes } from 'node:crypto';
import net from 'node:net';
import { setTimeout as sleep } from 'node:timers/promises';

const TEXT = 1, CLOSE = 8, PING = 9, PONG = 10;
const MAGIC = '258EAFA5-E914-47DA-95CA-C5AB0DC85B11';
const AWAY_MS = 500, LONGEST_SILENCE_MS = 60000;

// A whole frame of a client, of which each byte of the body is masked. Bodies are short here.
function masked(kind, body) {
  if (body.length > 65535) throw new Error('a frame of a bot has at most 4,096 bytes');
  const long = body.length > 125, mask = randomBytes(4);
  const head = Buffer.alloc(long ? 4 : 2);
  head[0] = 0x80 | kind;
  head[1] = 0x80 | (long ? 126 : body.length);
  if (long) head.writeUInt16BE(body.length, 2);
  return Buffer.concat([head, mask, body.map((byte, place) => byte ^ mask[place % 4])]);
}

// A WebSocket over TCP, as a client. What comes is put into a queue: texts, then the close code at the end.
class Link {
  static async open(url) {
    const { hostname, port, pathname, search, host } = new URL(url);
    const link = new Link();
    link.come = Buffer.alloc(0);
    link.parts = [];
    link.queue = [];
    link.socket = net.connect({ host: hostname, port: Number(port || 80), noDelay: true });
    link.socket.on('error', () => {});
    link.socket.on('close', () => link.put(1006));
    const key = randomBytes(16).toString('base64');
    link.socket.write(`GET ${pathname}${search} HTTP/1.1\r\nHost: ${host}\r\nUpgrade: websocket\r\nConnection: Upgrade\r\n`
      + `Sec-WebSocket-Key: ${key}\r\nSec-WebSocket-Version: 13\r\n\r\n`);
    link.accepted = createHash('sha1').update(key + MAGIC).digest('base64');
    link.socket.on('data', (piece) => {
      link.come = Buffer.concat([link.come, piece]);
      link.read();
    });
    return link;
  }

  // Reads the answer to the handshake, then each whole frame that has come.
  read() {
    if (this.accepted) {
      const end = this.come.indexOf('\r\n\r\n');
      if (end < 0) return;
      const [first, ...lines] = this.come.subarray(0, end).toString().split('\r\n');
      this.come = this.come.subarray(end + 4);
      const accept = lines.find((line) => /^sec-websocket-accept:/i.test(line))?.split(':')[1].trim();
      if (!/ 101\b/.test(first) || accept !== this.accepted) return this.put(1006);
      this.accepted = null;
    }
    for (let frame = this.frame(); frame; frame = this.frame()) this.take(...frame);
  }

  frame() {
    if (this.come.length < 2) return null;
    let size = this.come[1] & 127, start = 2;
    if (size > 125) {
      start = size === 126 ? 4 : 10;
      if (this.come.length < start) return null;
      size = size === 126 ? this.come.readUInt16BE(2) : Number(this.come.readBigUInt64BE(2));
    }
    if (this.come.length < start + size) return null;
    const found = [this.come[0], this.come.subarray(start, start + size)];
    this.come = this.come.subarray(start + size);
    return found;
  }

  take(first, body) {
    const kind = first & 15;
    if (kind === PING) this.socket.write(masked(PONG, body));
    else if (kind === CLOSE) {
      const code = body.length ? body.readUInt16BE(0) : 1005;
      this.end(code === 1005 ? null : code);
      this.put(code);
    } else if (kind !== PONG) {
      this.parts.push(body);
      if (first & 128) this.put(Buffer.concat(this.parts.splice(0)).toString());
    }
  }

  put(item) {
    this.queue.push(item);
    this.wake?.();
  }

  // The next text, or undefined if none came in that time. Throws at the end of the link.
  async receive(ms) {
    for (const end = Date.now() + ms; !this.queue.length;) {
      if (Date.now() >= end) return undefined;
      await new Promise((resolve) => {
        const timer = setTimeout(resolve, end - Date.now());
        this.wake = () => { clearTimeout(timer); resolve(); };
      });
      this.wake = null;
    }
    const item = this.queue.shift();
    if (typeof item === 'number') throw new Error(`closed with ${item}`);
    return item;
  }

  send(text) {
    this.socket.write(masked(TEXT, Buffer.from(text)));
  }

  // Sends a Close frame, and lets go of the connection.
  end(code) {
    const body = Buffer.alloc(code === null ? 0 : 2);
    if (code !== null) body.writeUInt16BE(code);
    this.socket.end(masked(CLOSE, body));
  }

  // Lets go of the connection without a Close frame.
  drop() {
    this.socket.destroy();
  }
}

// A bot. It heartbeats while it waits, resumes if it has a session, and checks the number of each dispatch.
class Bot {
  constructor(url, token, intents) {
    Object.assign(this, { url, token, intents, session: null, number: 0, resumesRefused: 0 });
  }

  async connect() {
    this.link = await Link.open(this.url + '/?v=10&encoding=json');
    const hello = JSON.parse(await this.link.receive(10000) ?? 'null');
    if (hello?.op !== 10) throw new Error(`no Hello but ${JSON.stringify(hello)}`);
    this.interval = hello.d.heartbeat_interval;
    this.acked = true;
    this.heartbeat();
    this.begin();
  }

  begin() {
    const { token, intents, session, number } = this;
    if (session) this.send(6, { token, session_id: session, seq: number });
    else this.send(2, { token, intents, properties: { os: 'linux', browser: 'plain', device: 'plain' } });
  }

  send(op, d) {
    this.link.send(JSON.stringify({ op, d }));
  }

  heartbeat() {
    this.acked = false;
    this.beatAt = Date.now() + this.interval;
    this.send(1, this.number || null);
  }

  // The next dispatch.
  async next() {
    for (const end = Date.now() + LONGEST_SILENCE_MS; ;) {
      const text = await this.link.receive(Math.min(end, this.beatAt) - Date.now());
      if (text === undefined) {
        if (Date.now() >= end) throw new Error(`nothing came for ${LONGEST_SILENCE_MS / 1000} seconds`);
        if (!this.acked) throw new Error('a heartbeat was not answered');
        this.heartbeat();
        continue;
      }
      const { op, s, t, d } = JSON.parse(text);
      if (op === 0) return this.dispatch(s, t, d);
      if (op === 11) this.acked = true;
      if (op === 1) this.heartbeat();
      if (op === 9) {
        this.resumesRefused += 1;
        this.session = null;
        this.number = 0;
        this.begin();
      }
    }
  }

  dispatch(number, name, data) {
    const wanted = name === 'READY' ? 1 : name === 'RESUMED' ? this.number : this.number + 1;
    if (number !== wanted) throw new Error(`${name} has the number ${number} and not ${wanted}`);
    this.number = number;
    if (name === 'READY') [this.session, this.url] = [data.session_id, data.resume_gateway_url];
    return [number, name, data];
  }
}

// Follows its guilds until each has the name `end`.
async function play(bot, drops) {
  let names = new Map(), dropped = 0, replayed = 0, behind = false;
  await bot.connect();
  for (;;) {
    const [number, name, data] = await bot.next();
    console.log(number, name);
    if (name === 'READY') names = new Map(data.guilds.map((guild) => [guild.id, null]));
    else if (name === 'RESUMED') behind = false;
    else if (name === 'GUILD_CREATE' || name === 'GUILD_UPDATE') names.set(data.id, data.name);
    replayed += behind;
    if (!behind && drops.length && number >= drops[0]) {
      drops.shift();
      bot.link.drop();
      console.log('dropped after', number);
      dropped += 1;
      await sleep(AWAY_MS);
      await bot.connect();
      behind = true;
    } else if (!behind && names.size && [...names.values()].every((held) => held === 'end')) return [dropped, replayed];
  }
}

const [url, token, intents, ...rest] = process.argv.slice(2);
if (!intents) {
  console.error('usage: plain.mjs URL TOKEN INTENTS [DROP..]');
  process.exit(2);
}
try {
  const bot = new Bot(url, token, Number(intents));
  const drops = rest.length ? rest.map(Number) : [6, 25];
  const [dropped, replayed] = await play(bot, drops);
  bot.link.end(1000);
  if (drops.length) throw new Error(`the end came before the drop after ${drops[0]}: connect before the edits are made`);
  if (bot.resumesRefused) throw new Error('a resume was refused');
  console.log(`right: ${bot.number} dispatches, ${dropped} drops, ${replayed} replayed`);
} catch (fault) {
  console.error(`plain.mjs: ${fault.message}`);
  process.exit(1);
}
