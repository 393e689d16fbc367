"""Real editors with the language server and the settings of editors/: each opens a broken world and sees what is wrong;
Neovim mends it by a code action, and saves a world that the program accepts."""

import os
import shutil
import subprocess
import tempfile
import unittest

from setting import TOOLS, TOP, WORLDS, read
from ceptre_tools.program import refusal

EDITORS = os.path.join(TOP, "editors")
SETTINGS = os.path.join(EDITORS, "neovim", "ceptre.lua")
SERVER = os.path.join(TOOLS, "server")

SAID = "What stands here cannot come next; likely a missing dot"

# What a person does, as a script: waits for the diagnostics, takes the first action at their place, and saves.
SCRIPT = """
local out = {}
vim.g.ceptre_server = SERVER
dofile(SETTINGS)
vim.cmd("edit " .. WORLD)
local function wait_for(is_there)
  return vim.wait(20000, is_there, 20)
end
local function found()
  return vim.diagnostic.get(0)
end
wait_for(function() return #found() == 1 and found()[1].message:find("likely") end)
local first = found()[1]
table.insert(out, string.format("%d:%d %s", first.lnum + 1, first.col + 1, vim.split(first.message, "\\n")[1]))
vim.api.nvim_win_set_cursor(0, { first.lnum + 1, first.col })
vim.ui.select = function(items, _, choose)
  table.insert(out, items[1][2].title)
  choose(items[1], 1)
end
vim.lsp.buf.code_action()
wait_for(function() return #found() == 0 and vim.bo.modified end)
table.insert(out, #found() .. " left")
vim.cmd("write")
vim.fn.writefile(out, OUT)
vim.cmd("quitall!")
"""


def place(text, offset):
    """A place in a text as its line and column."""
    before = text[:offset]
    return f"{before.count(chr(10)) + 1}:{offset - before.rfind(chr(10))}"


VIM = """
set nocompatible runtimepath^=%s,/usr/share/vim-ale
let g:ceptre_server = '%s'
let g:ale_linters = {'ceptre': ['server']}
filetype plugin on
source /usr/share/vim-ale/plugin/ale.vim
edit %s
let n = 0
while n < 400 && len(filter(ale#engine#GetLoclist(bufnr('')), 'v:val.text =~ "likely"')) == 0
  sleep 50m
  let n += 1
endwhile
call writefile(map(ale#engine#GetLoclist(bufnr('')), 'v:val.lnum . ":" . v:val.col . " " . v:val.text'), '%s')
quitall!
"""

EMACS = """
(setq user-emacs-directory "%s/")
(package-initialize)
(unless (require 'eglot nil t) (kill-emacs 9))
(defvar ceptre-server '("%s"))
(load "%s")
(find-file "%s")
(setq eglot-sync-connect 20)
(eglot--connect '(ceptre-mode) (cons 'transient default-directory) 'eglot-lsp-server ceptre-server "ceptre")
(defun told () (mapcar #'flymake-diagnostic-text (flymake-diagnostics)))
(let ((n 0))
  (while (and (< n 200) (not (string-match-p "likely" (format "%%s" (told)))))
    (accept-process-output nil 0.1)
    (setq n (1+ n))))
(dolist (found (flymake-diagnostics))
  (princ (format "%%d %%s" (line-number-at-pos (flymake-diagnostic-beg found)) (flymake-diagnostic-text found))))
"""


class Clients(unittest.TestCase):
    def setUp(self):
        folder = tempfile.TemporaryDirectory()
        self.addCleanup(folder.cleanup)
        self.folder = folder.name
        self.world, self.out, self.script = (self.path(name) for name in ("castle.cep", "out", "script"))
        self.text = read(WORLDS, "castle.cep").replace("door A B <- joins B A.", "door A B <- joins B A", 1)
        self.write(self.world, self.text)
        self.refused = place(self.text, self.text.index(": bwd.", self.text.index("\nway")))
        self.mended = place(self.text, self.text.index("joins B A\n") + len("joins B A"))

    def path(self, name):
        return os.path.join(self.folder, name)

    def write(self, path, text):
        with open(path, "w", encoding="utf-8") as file:
            file.write(text)

    def run_editor(self, *command):
        """What an editor writes, in a home of its own."""
        environment = {**os.environ, "HOME": self.folder, "XDG_STATE_HOME": self.folder, "XDG_CONFIG_HOME": self.folder}
        pipes = {"stdin": subprocess.DEVNULL, "capture_output": True, "text": True}
        return subprocess.run(command, env=environment, cwd=self.folder, timeout=60, check=False, **pipes)

    @unittest.skipUnless(shutil.which("nvim"), "nvim is not installed")
    def test_neovim_mends_and_saves(self):
        names = {"SERVER": SERVER, "SETTINGS": SETTINGS, "WORLD": self.world, "OUT": self.out}
        self.write(self.script, "".join(f"local {name} = {value!r}\n" for name, value in names.items()) + SCRIPT)
        done = self.run_editor("nvim", "--headless", "--clean", "-n", "-c", f"luafile {self.script}")
        self.assertTrue(os.path.exists(self.out), done.stderr)
        told = [f"{self.refused} {SAID}", f"`.` put in at {self.mended}", "0 left"]
        self.assertEqual(read(self.out).splitlines(), told)
        self.assertIsNone(refusal(self.world))
        self.assertEqual(read(self.world), read(WORLDS, "castle.cep"))

    @unittest.skipUnless(shutil.which("vim") and os.path.exists("/usr/share/vim-ale"), "vim-ale is not installed")
    def test_vim_with_ale(self):
        self.write(self.script, VIM % (os.path.join(EDITORS, "vim"), SERVER, self.world, self.out))
        self.run_editor("vim", "-N", "-u", "NONE", "-i", "NONE", "-n", "-es", "-S", self.script)
        (line,) = read(self.out).splitlines()
        self.assertTrue(line.startswith(f"{self.refused} {SAID}"), line)

    @unittest.skipUnless(shutil.which("emacs"), "emacs is not installed")
    def test_emacs_with_eglot(self):
        settings = os.path.join(EDITORS, "emacs", "ceptre.el")
        self.write(self.script, EMACS % (self.folder, SERVER, settings, self.world))
        done = self.run_editor("emacs", "--batch", "-l", self.script)
        if done.returncode == 9:
            self.skipTest("eglot is not installed")
        line = self.refused.split(":")[0]
        self.assertIn(f"{line} ceptre [Unexpected]: {SAID}", done.stdout, done.stderr)

    @unittest.skipUnless(shutil.which("node"), "node is not installed")
    def test_the_extension_for_vs_code(self):
        stand_in = os.path.join(TOP, "tools", "tests", "extension.js")
        extension = os.path.join(EDITORS, "textmate", "extension.js")
        done = self.run_editor("node", stand_in, extension, SERVER, self.world)
        told = [SAID, f"`.` put in at {self.mended} | {self.mended} .", "garden : room."]
        self.assertEqual((done.stdout.splitlines(), done.returncode), (told, 0), done.stderr)


if __name__ == "__main__":
    unittest.main()
