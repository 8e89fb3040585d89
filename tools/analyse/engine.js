'use strict';
// GNU parallel, which runs the jobs of a folder on this machine and on others.

const { spawn, spawnSync } = require('child_process');
const path = require('path');
const { RunFault } = require('../bolgwyr/faults.js');

const BATCH = path.join(__dirname, 'batch.js');

const quoted = (text) => `'${text.replace(/'/g, "'\\''")}'`;

// Another program of this name knows none of these words.
function checkEngine() {
  const run = spawnSync('parallel', ['--version'], { encoding: 'utf8' });
  if (run.error !== undefined || !run.stdout.startsWith('GNU parallel')) {
    throw new RunFault('GNU parallel is wanted (apt-get install parallel)');
  }
}

// The command of one job. Other machines get the place of the programs too, where it is named.
function jobCommand(settings) {
  const words = JSON.stringify(settings);
  const place = process.env.BOLGWYR_PROGRAMS;
  const programs = place ? `BOLGWYR_PROGRAMS=${quoted(path.resolve(place))} ` : '';
  return `${programs}node --max-old-space-size=8192 ${quoted(BATCH)} ${quoted(words)} {}`;
}

// What the engine does for other machines. Bundles go to a folder there that is taken away again.
function machineWords(run) {
  const machines = run.machines === null ? [] : ['--sshloginfile', run.machines];
  if (!run.transfer) {
    return machines;
  }
  return [...machines, '--workdir', '...', '--cleanup', '--transferfile', 'bundles/{}', '--return', 'answers/{}'];
}

function engineWords(run) {
  return [
    '--will-cite', '--null', '--max-args', String(run.batch), '--arg-file', run.list, '--joblog', run.joblog,
    ...(run.resume ? ['--resume-failed'] : []),
    ...(run.jobs === null ? [] : ['--jobs', run.jobs]),
    ...(run.bar ? ['--bar'] : []),
    ...machineWords(run),
    jobCommand(run.settings),
  ];
}

// Runs all jobs, whose rows go to a file. A signal that asks to end goes on to the engine.
function runJobs(run, rows) {
  const child = spawn('parallel', engineWords(run), { cwd: run.out, stdio: ['ignore', rows, 'inherit'] });
  const passOn = () => child.kill('SIGTERM');
  process.on('SIGINT', () => {});
  process.on('SIGTERM', passOn);
  return new Promise((resolve, reject) => {
    child.on('error', reject);
    child.on('close', (status, signal) => resolve({ status, signal }));
  });
}

module.exports = { checkEngine, runJobs };
