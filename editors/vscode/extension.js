// The tasks `b67: run` and `b67: check` for the deck in the editor. The first line that they print names the file, for the problem matcher:
// b67 itself reads standard input, and names cards alone. `node extension.js run FILE CORE PROGRAM..` is what a task runs.
const {spawnSync} = require('node:child_process');
const fs = require('node:fs');
const os = require('node:os');
const path = require('node:path');

function carriesOut([command, file, core, program, ...first]) {
  const backing = path.join(os.tmpdir(), `b67-${process.pid}`), words = command === 'run' ? ['run', '--core', core, '--backing', backing] : ['check'];
  console.log(`deck ${path.resolve(file)}`);
  const {status, error} = spawnSync(program, [...first, ...words], {input: fs.readFileSync(file), stdio: ['pipe', 'inherit', 'inherit']});
  fs.rmSync(backing, {force: true});
  if (error) console.log(`${program} can't be run: name it in the setting b67.program`);
  return status ?? 1;
}

function taskOf(vscode, definition) {
  const settings = vscode.workspace.getConfiguration('b67'), file = vscode.window.activeTextEditor?.document.fileName ?? '';
  const words = [__filename, definition.command, file, String(settings.get('core')), ...settings.get('program')];
  const execution = new vscode.ProcessExecution(process.execPath, words, {env: {ELECTRON_RUN_AS_NODE: '1'}}); // the editor's own node
  return new vscode.Task(definition, vscode.TaskScope.Workspace, definition.command, 'b67', execution, '$b67');
}

exports.activate = context => {
  const vscode = require('vscode');
  context.subscriptions.push(vscode.tasks.registerTaskProvider('b67', {
    provideTasks: () => ['run', 'check'].map(command => taskOf(vscode, {type: 'b67', command})),
    resolveTask: ({definition}) => taskOf(vscode, definition),
  }));
};

if (require.main === module) process.exitCode = carriesOut(process.argv.slice(2));
