// Jobs beside the page: a Worker runs them, made from the page's own script, so that nothing is asked for. A new job ends the old one.
import { $ } from './dom.js';
import { runJob } from './jobs.js';

let address = null; // of the script of all Workers

export class Work {
  constructor(module) {
    Object.assign(this, { module, worker: null, isLocal: false, id: 0, told: null, job: null });
  }

  start() {
    try {
      address ??= URL.createObjectURL(new Blob([$('core').textContent, '\nmodule_jobs.serve(self);'], { type: 'text/javascript' }));
      this.worker = new Worker(address);
      this.worker.onmessage = ({ data }) => (data.failed ? this.fallBack() : this.hear(data.id, data.found));
      this.worker.onerror = () => this.fallBack();
      this.worker.postMessage({ module: this.module });
    } catch {
      this.isLocal = true;
    }
  }

  // This browser runs no Worker for a file: the page runs the job itself.
  fallBack() {
    this.isLocal = true;
    this.worker = null;
    if (this.told) this.run(...this.job, this.told);
  }

  hear(id, found) {
    if (id !== this.id || !this.told) return;
    const told = this.told;
    if (found === null) this.told = null;
    told(found);
  }

  // `told` gets what the job yields, and null at its end.
  run(kind, given, told) {
    this.stop();
    const id = ++this.id;
    Object.assign(this, { told, job: [kind, given] });
    if (!this.worker && !this.isLocal) this.start();
    if (this.isLocal) runJob(kind, given, (found) => this.hear(id, found), () => id === this.id);
    else this.worker.postMessage({ id, kind, given });
  }

  // What runs may be deep in a count, so its Worker is ended; the next job makes a new one.
  stop() {
    if (this.told && this.worker) {
      this.worker.terminate();
      this.worker = null;
    }
    this.told = null;
    this.id++;
  }
}
