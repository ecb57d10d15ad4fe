// The page: this tab is a host. It echoes what comes to port 7 by UDP and TCP, and sends texts to other tabs.
import {Driver, Link} from './link.mjs';
import {Host, Library, Refused, whyNot} from './zemplovir.mjs';

const ECHO = 7, LINES = 500;
// How long a remote may be silent, in microseconds.
const PATIENCE = 10_000_000;

function byId(id) {
    return document.getElementById(id);
}

function say(words, isBad = false) {
    byId('said').textContent = words;
    byId('said').className = isBad ? 'bad' : '';
}

function note(id, words) {
    const it = byId(id);
    it.textContent = `${it.textContent}${words}\n`.split('\n').slice(-LINES).join('\n');
    it.scrollTop = it.scrollHeight;
}

// The host's number: that behind the address's #, else one by chance.
function numberOf(hash) {
    const asked = Number(hash.slice(1));
    return Number.isInteger(asked) && asked > 0 && asked < 255 ? asked : 1 + crypto.getRandomValues(new Uint8Array(1))[0] % 254;
}

class Tab {
    constructor(library, number) {
        this.address = `10.9.0.${number}`;
        const clock = () => Math.round(performance.now() * 1000);
        this.host = new Host(library, {hardware: [2, 0, 0, 0, 0, number]}, clock());
        this.host.addAddress(this.address, 24);
        this.echoes = this.host.udp(ECHO);
        this.asks = this.host.udp(49152);
        this.listener = this.host.listen(ECHO, 8);
        this.serving = [];
        this.asking = [];
        this.port = 49152 + crypto.getRandomValues(new Uint16Array(1))[0] % 16000;
        this.link = new Link('zemplovir', (frame) => this.take(frame));
        this.driver = new Driver(this.host, {
            clock,
            send: (frame) => this.link.send(frame),
            seen: (now, sent, frame) => note('frames', this.host.traceLine(now, sent, frame).trimEnd()),
            changed: () => this.work(),
        });
        this.driver.wake();
    }

    // A frame that finds no room is lost, as on any link.
    take(frame) {
        try {
            this.driver.frameIn(frame);
        } catch (error) {
            if (!(error instanceof Refused)) throw error;
        }
    }

    // All that can be done now.
    work() {
        for (let came = this.echoes.recv(); came; came = this.echoes.recv()) {
            note('told', `datagram of ${came.from.address}:${came.from.port}, echoed: ${new TextDecoder().decode(came.bytes)}`);
            this.echoes.send(came.bytes, came.from);
        }
        for (let came = this.asks.recv(); came; came = this.asks.recv()) {
            note('told', `${came.from.address} echoed by UDP: ${new TextDecoder().decode(came.bytes)}`);
        }
        for (let socket = this.listener.accept(); socket; socket = this.listener.accept()) this.serving.push(socket);
        this.serving = this.serving.filter((socket) => this.serve(socket));
        this.asking = this.asking.filter((it) => this.ask(it));
    }

    // Sends back what came, and closes behind the end. Whether there is more to do.
    serve(socket) {
        const bytes = socket.recv();
        if (bytes === null) {
            if (socket.state === 'CLOSE-WAIT') socket.close();
            else socket.abort();
            this.listener.giveBack(socket);
            return false;
        }
        if (bytes.length > 0) {
            const {address, port} = socket.peer;
            note('told', `stream of ${address}:${port}, echoed: ${new TextDecoder().decode(bytes)}`);
            socket.send(bytes);
        }
        return true;
    }

    // Sends the text once the connection is open, closes, and reads what comes back.
    ask(it) {
        if (it.left && it.socket.state === 'ESTABLISHED') {
            it.left = it.left.subarray(it.socket.send(it.left));
            if (it.left.length === 0) {
                it.left = null;
                it.socket.close();
            }
        }
        for (let bytes = it.left ? null : it.socket.recv(); bytes && bytes.length > 0; bytes = it.socket.recv()) it.came.push(...bytes);
        const {state} = it.socket;
        if (state !== 'CLOSED' && state !== 'TIME-WAIT') return true;
        const text = new TextDecoder().decode(Uint8Array.from(it.came));
        note('told', it.left ? `${it.to} doesn't answer` : `${it.to} echoed by TCP: ${text}`);
        return state === 'CLOSED' ? it.socket.remove() : this.later(it.socket);
    }

    // A connection in TIME-WAIT goes by itself.
    later(socket) {
        socket.abort();
        socket.remove();
        return false;
    }

    sendText(address, text, way) {
        const bytes = new TextEncoder().encode(text);
        if (way === 'udp') {
            this.asks.send(bytes, {address, port: ECHO});
        } else {
            this.port = this.port < 65535 ? this.port + 1 : 49153;
            const socket = this.host.connect(address, ECHO, this.port);
            socket.setTimeout(PATIENCE);
            this.asking.push({to: address, socket, left: bytes, came: []});
        }
        this.driver.wake();
    }
}

async function main() {
    const why = whyNot();
    if (why) return say(why, true);
    const library = await Library.of(Uint8Array.from(atob(byId('module').textContent), (char) => char.charCodeAt(0)));
    const tab = new Tab(library, numberOf(location.hash));
    byId('own').textContent = tab.address;
    byId('form').onsubmit = (event) => {
        event.preventDefault();
        try {
            tab.sendText(byId('address').value.trim(), byId('text').value, byId('way').value);
            say(`sent to ${byId('address').value.trim()}`);
        } catch (error) {
            say(error.message, true);
        }
    };
    byId('send').disabled = false;
    say('Open this file in another tab: that is another host.');
}

main().catch((error) => say(`This page's program failed: ${error.message}`, true));
