// The router behind the page, in a worker made from a text: the newest question is answered, and one that takes too long is ended, and said.
// What may wait is asked when nothing else is, and gives way.

const LONGEST = 4000; // milliseconds that an answer may take
const PATIENCE = 400; // and that a newer question waits for it

export class Background {
    // `source` is the worker's script, `load` the message that loads the module, `told` what hears of answers.
    constructor(source, load, told, longest = LONGEST) {
        Object.assign(this, { source, load, told, longest, waiting: null, files: [], idle: null });
        Object.assign(this, { asked: null, begun: 0, timer: null, isLoaded: false });
        this.start();
    }

    start() {
        this.isLoaded = false;
        const address = URL.createObjectURL(new Blob([this.source], { type: "text/javascript" }));
        this.worker = new Worker(address);
        this.worker.onmessage = ({ data }) => this.heard(data);
        this.worker.onerror = (error) => this.told({ failed: error.message || "the worker could not be started" });
        this.worker.postMessage(this.load);
        URL.revokeObjectURL(address);
    }

    ask(question) {
        this.waiting = question;
        if (!question.asks) this.idle = null; // it was about the route before
        const patience = PATIENCE - (performance.now() - this.begun);
        if (this.asked === null) this.send();
        else if (patience <= 0) this.startAnew();
        else if (this.asked.mayWait) this.endsIn(patience);
    }

    // Asks when nothing else is to be asked.
    askIdly(question) {
        this.idle = { ...question, mayWait: true };
        this.send();
    }

    endsIn(milliseconds) {
        clearTimeout(this.timer);
        this.timer = setTimeout(() => this.startAnew(), milliseconds);
    }

    // Asks something beside the route; a route that waits goes first. A file that is to be saved waits for it, too.
    askAlso(question) {
        if (question.saveAs) {
            this.files.push(question);
            this.send();
        } else if (this.waiting === null) this.ask(question);
    }

    // Sends what waits, once the module is there and free: then its time begins.
    send() {
        if (!this.isLoaded || this.asked !== null) return;
        const next = this.waiting ?? this.files.shift() ?? this.idle;
        if (!next) return;
        this.asked = next;
        if (next === this.waiting) this.waiting = null;
        if (next === this.idle) this.idle = null;
        this.begun = performance.now();
        this.worker.postMessage(this.asked);
        this.timer = setTimeout(() => this.tooLate(), this.longest);
    }

    heard(data) {
        if (data.names) this.isLoaded = true;
        else if (data.id !== undefined) {
            clearTimeout(this.timer);
            this.asked = null;
        }
        this.told(data);
        this.send();
    }

    startAnew() {
        clearTimeout(this.timer);
        this.worker.terminate();
        this.asked = null;
        this.start();
    }

    tooLate() {
        const { id, asks } = this.asked;
        this.told({ id, asks, late: this.longest / 1000 });
        this.startAnew();
    }
}
