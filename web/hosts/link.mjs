// A link between tabs: each frame that a host sends goes to all others, as on a hub, by a BroadcastChannel.

export class Link {
    // What comes is given to `took`, a frame at a time.
    constructor(name, took) {
        this.channel = new BroadcastChannel(name);
        this.channel.onmessage = ({data}) => {
            if (data instanceof Uint8Array) took(data);
        };
    }

    send(frame) {
        this.channel.postMessage(frame);
    }

    close() {
        this.channel.close();
    }
}

// Polls a host whenever it wants to be, and hands its frames over: `send` takes each that goes, `seen` is told of each that comes or goes, and
// `changed` is called where a socket may have changed, to do what can be done now.
export class Driver {
    constructor(host, {send, seen = () => {}, changed = () => {}, clock = () => Math.round(performance.now() * 1000)}) {
        Object.assign(this, {host, send, seen, changed, clock});
        this.timer = null;
        this.isWaking = false;
    }

    frameIn(frame) {
        this.seen(this.clock(), false, frame);
        this.host.frameIn(frame);
        this.wake();
    }

    // Polls as soon as what runs now has ended. (A timer of no time has a tab in the background wait for a second.)
    wake() {
        if (this.isWaking) return;
        this.isWaking = true;
        queueMicrotask(() => {
            this.isWaking = false;
            this.turn();
        });
    }

    at(millis) {
        this.timer = setTimeout(() => this.turn(), millis);
    }

    // A poll, what the program does then, what goes, and when the next turn is due.
    turn() {
        clearTimeout(this.timer);
        const now = this.clock();
        this.host.poll(now);
        this.changed();
        this.host.poll(now);
        for (let frame = this.host.frameOut(); frame !== null; frame = this.host.frameOut()) {
            this.seen(now, true, frame);
            this.send(frame);
        }
        const next = this.host.pollAt(now);
        if (next !== null) this.at(Math.min(Math.max(0, Math.ceil((next - this.clock()) / 1000)), 2 ** 31 - 1));
    }

    stop() {
        clearTimeout(this.timer);
    }
}
