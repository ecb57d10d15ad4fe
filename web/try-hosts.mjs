// Tries the host for JavaScript in node, without a browser:
//
//     node --experimental-wasm-memory64 web/try-hosts.mjs MODULE
//
// Two hosts, each in a memory of its own, on a link that is a list of frames, of which every so many is lost; the clock is a number. Then two on
// a BroadcastChannel, by the clock of the machine. tools/try-hosts runs it.
import {readFileSync} from 'node:fs';
import {Driver, Link} from './hosts/link.mjs';
import {bytesOf, Host, Library, Refused, textOf, whyNot} from './hosts/zemplovir.mjs';

let wrong = 0;

function must(is, words) {
    if (!is) {
        wrong++;
        console.log(`wrong: ${words}`);
    }
}

const bytes = readFileSync(process.argv[2]);
const text = (words) => new TextEncoder().encode(words);
const words = (bytes) => new TextDecoder().decode(bytes);

async function hosts(options = {}) {
    const made = [];
    for (const number of [1, 2]) {
        const host = new Host(await Library.of(bytes), {hardware: [2, 0, 0, 0, 0, number], ...options}, 0);
        host.addAddress(`10.9.0.${number}`, 24);
        host.addAddress(`fd00::${number}`, 64);
        made.push(host);
    }
    return made;
}

// Lets two hosts run until neither wants a poll before `end`, or `done` says so. Each frame takes 100 microseconds, and every `loses`th is lost.
class World {
    constructor(pair, loses = 0) {
        Object.assign(this, {pair, loses, now: 0, frames: 0, lost: 0, lines: []});
    }

    run(micros, act = () => {}, done = () => false) {
        const end = this.now + micros;
        while (this.now <= end && !done()) {
            this.pair.forEach((host, k) => {
                host.poll(this.now);
                act(k, host);
                host.poll(this.now);
            });
            const moved = this.carry();
            if (moved) {
                this.now += 100;
                continue;
            }
            const next = Math.min(...this.pair.map((host) => host.pollAt(this.now) ?? Infinity));
            if (next > end) break;
            this.now = Math.max(next, this.now + 1);
        }
    }

    carry() {
        let moved = 0;
        this.pair.forEach((host, k) => {
            for (let frame = host.frameOut(); frame !== null; frame = host.frameOut()) {
                moved++;
                if (this.lines.length < 40) this.lines.push(host.traceLine(this.now, true, frame));
                if (this.loses && ++this.frames % this.loses === 0) this.lost++;
                else this.pair[1 - k].frameIn(frame);
            }
        });
        return moved;
    }
}

async function datagrams() {
    const [a, b] = await hosts(), world = new World([a, b]);
    const one = a.udp(5000), other = b.udp(7);
    must(one.recv() === null, 'a datagram before any came');
    one.send(text('hello'), {address: '10.9.0.2', port: 7});
    one.send(text('six'), {address: 'fd00::2', port: 7});
    const came = [];
    world.run(5e6, (k) => {
        if (k === 1) {
            for (let it = other.recv(); it; it = other.recv()) {
                came.push([words(it.bytes), it.from.address, it.from.port, it.to]);
                other.send(it.bytes, it.from);
            }
        }
    });
    must(JSON.stringify(came) === JSON.stringify([['hello', '10.9.0.1', 5000, '10.9.0.2'], ['six', 'fd00::1'.replace('::', ':0:0:0:0:0:0:'), 5000, 'fd00:0:0:0:0:0:0:2']]),
        `datagrams: ${JSON.stringify(came)}`);
    const back = [one.recv(), one.recv()].map((it) => it && words(it.bytes));
    must(back[0] === 'hello' && back[1] === 'six' && one.recv() === null, `echoes: ${back}`);
    must(/^\[ *\d+\.\d{6}s\] -> Ethernet 02-00-00-00-00-01 > ff-ff-ff-ff-ff-ff, ARP/.test(world.lines[0]), `the first line: ${world.lines[0]}`);
    one.close();
    let refused = null;
    try {
        one.send(text('x'), {address: '10.9.0.2', port: 7});
    } catch (error) {
        refused = error;
    }
    must(refused instanceof Refused && refused.code === 5, `a socket that is closed: ${refused}`);
    a.free();
    b.free();
}

function pattern(count) {
    return Uint8Array.from({length: count}, (_, k) => (k * 7 + (k >> 8) * 13) & 255);
}

// A million bytes there, and as many back; then both ends close.
async function stream(loses, address) {
    const [a, b] = await hosts(), world = new World([a, b], loses);
    const given = pattern(1_000_000), there = [], back = [];
    const listener = b.listen(80), client = a.connect(address, 80, 49152);
    let left = given, server = null, echo = [], ended = false;
    const began = performance.now();
    const joined = (parts) => Buffer.concat(parts);
    world.run(3600e6, (k) => {
        if (k === 0) {
            if (client.state === 'ESTABLISHED' && left.length) left = left.subarray(client.send(left));
            for (let it = client.recv(); it && it.length; it = client.recv()) back.push(it);
            if (!ended && joined(back).length === given.length) {
                ended = true;
                client.close();
            }
            return;
        }
        server ??= listener.accept();
        if (!server) return;
        for (let it = server.recv(); it && it.length; it = server.recv()) {
            there.push(it);
            echo.push(it);
        }
        while (echo.length) {
            const sent = server.state === 'ESTABLISHED' ? server.send(echo[0]) : 0;
            if (sent < echo[0].length) {
                echo[0] = echo[0].subarray(sent);
                break;
            }
            echo.shift();
        }
        if (server.state === 'CLOSE-WAIT') server.close();
    }, () => ended && client.state === 'TIME-WAIT' && server.state === 'CLOSED');
    must(joined(there).equals(Buffer.from(given)), `${address}: ${joined(there).length} bytes came`);
    must(joined(back).equals(Buffer.from(given)), `${address}: ${joined(back).length} bytes came back`);
    must(client.state === 'TIME-WAIT' && server.state === 'CLOSED', `${address}: the ends are ${client.state} and ${server?.state}`);
    must(loses === 0 || world.lost > 0, 'no frame was lost');
    const {out} = a.counters();
    console.log(`${given.length} bytes there and back by ${address}: ${out + b.counters().out} frames, ${world.lost} lost, ${(world.now / 1e3).toFixed(1)} ms of the ` +
        `hosts' time, ${(performance.now() - began).toFixed(0)} ms`);
    listener.giveBack(server);
    a.free();
    b.free();
}

async function refusals() {
    const [a, b] = await hosts(), world = new World([a, b]);
    const socket = a.connect('10.9.0.2', 81, 49152);
    world.run(5e6);
    must(socket.state === 'CLOSED', `nobody listens: ${socket.state}`);
    const listener = b.listen(80), client = a.connect('10.9.0.2', 80, 49153);
    world.run(1e6);
    const server = listener.accept();
    must(client.state === 'ESTABLISHED' && server?.state === 'ESTABLISHED', 'a connection');
    must(server?.peer.address === '10.9.0.1' && server.peer.port === 49153, `the peer: ${JSON.stringify(server?.peer)}`);
    client.abort();
    world.run(1e6);
    must(server.state === 'CLOSED' && server.recv() === null, `a reset: ${server.state}`);
    for (const [what, code] of [[() => a.addAddress('255.255.255.255', 24), 18], [() => a.udp(0), 8], [() => a.connect('0.0.0.0', 1, 2), 8]]) {
        let found = null;
        try {
            what();
        } catch (error) {
            found = error.code;
        }
        must(found === code, `a refusal: ${found}, not ${code}`);
    }
    must(textOf(6, bytesOf('fe80::1:2')) === 'fe80:0:0:0:0:0:1:2' && textOf(4, bytesOf('1.2.3.4')) === '1.2.3.4', 'addresses');
    for (const bad of ['1.2.3', '256.1.1.1', '1::2::3', 'x::', '1:2:3:4:5:6:7']) {
        let found = null;
        try {
            bytesOf(bad);
        } catch (error) {
            found = error;
        }
        must(found instanceof TypeError, `${bad} is an address`);
    }
    a.free();
    b.free();
}

// Two hosts on a channel, each with its driver, by the machine's clock.
async function channel() {
    const [a, b] = await hosts(), sides = [];
    for (const [k, host] of [a, b].entries()) {
        const link = new Link('try', (frame) => sides[k].driver.frameIn(frame));
        sides.push({link, driver: new Driver(host, {send: (frame) => link.send(frame), changed: () => sides[k].act()})});
    }
    const listener = b.listen(7), client = a.connect('10.9.0.2', 7, 50000);
    let server = null, asked = false, came = '';
    sides[1].act = () => {
        server ??= listener.accept();
        const it = server?.recv();
        if (it?.length) server.send(it);
        if (server?.state === 'CLOSE-WAIT') server.close();
    };
    const ended = new Promise((resolve) => {
        setTimeout(() => resolve('after ten seconds'), 10_000).unref();
        sides[0].act = () => {
            if (!asked && client.state === 'ESTABLISHED') {
                asked = true;
                client.send(text('over a channel'));
            }
            const it = client.recv();
            if (it?.length) came += words(it);
            if (came === 'over a channel' && client.state === 'ESTABLISHED') client.close();
            if (client.state === 'TIME-WAIT') resolve('closed');
        };
    });
    sides.forEach((side) => side.driver.wake());
    const end = await ended;
    must(end === 'closed' && came === 'over a channel', `a channel: ${end}, ${came}`);
    console.log(`over a BroadcastChannel: ${came}, ${end}`);
    sides.forEach(({link, driver}) => {
        link.close();
        driver.stop();
    });
}

const why = whyNot();
if (why) {
    console.log(why);
    process.exit(3);
}
await datagrams();
await stream(0, '10.9.0.2');
await stream(50, '10.9.0.2');
await stream(97, 'fd00::2');
await refusals();
await channel();
console.log(wrong ? `${wrong} wrong` : 'all as it must in node');
process.exit(wrong ? 1 : 0);
