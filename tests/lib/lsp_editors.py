"""The language server in editors that are installed."""
import os
import shutil
import subprocess
import sys

from lsp_client import SERVER, expect

NEOVIM = r"""
local told = {}
local function wait(what, is_so)
  table.insert(told, (vim.wait(10000, is_so, 20) and '' or 'not ') .. what)
end
local function faults(count)
  return function() return #vim.diagnostic.get(0) == count end
end
local function work()
  vim.bo.expandtab, vim.bo.shiftwidth, vim.bo.tabstop = true, 2, 2
  local command = { vim.env.LSP_PYTHON, vim.env.LSP_SERVER, '--program', vim.env.LSP_PROGRAM }
  local id = vim.lsp.start({ name = 'shform', cmd = command, root_dir = vim.fn.getcwd() })
  wait('attached', function() return id ~= nil and vim.lsp.buf_is_attached(0, id) end)
  vim.cmd("normal! 2GA'")
  wait('faulty', faults(1))
  local fault = vim.diagnostic.get(0)[1] or {}
  table.insert(told, string.format('%s:%s %s', fault.lnum, fault.col, fault.message))
  vim.cmd('normal! 2G$x')
  wait('faultless', faults(0))
  vim.lsp.buf.format({ async = false, timeout_ms = 10000 })
  vim.list_extend(told, vim.api.nvim_buf_get_lines(0, 0, -1, false))
  local params = { textDocument = vim.lsp.util.make_text_document_params(0) }
  for _, reply in pairs(vim.lsp.buf_request_sync(0, 'textDocument/documentSymbol', params, 10000) or {}) do
    for _, symbol in ipairs(reply.result or {}) do table.insert(told, symbol.name) end
  end
end
if not vim.lsp or not vim.lsp.start then
  told = { 'too old' }
else
  local well, why = pcall(work)
  if not well then table.insert(told, tostring(why)) end
end
vim.fn.writefile(told, vim.env.LSP_TOLD)
vim.cmd('qall!')
"""

EMACS = r""";;; -*- lexical-binding: t -*-
(require 'eglot nil t)
(require 'flymake)
(defvar told nil)
(defun tell (line) (push line told))
(defun wait (what is-so)
  (let ((ends (+ (float-time) 10)))
    (while (and (not (funcall is-so)) (< (float-time) ends)) (accept-process-output nil 0.05))
    (tell (concat (if (funcall is-so) "" "not ") what))))
(defun faults (count)
  (lambda () (flymake-start) (= count (length (flymake-diagnostics)))))
(defun change (what)
  (funcall what)
  (eglot--signal-textDocument/didChange))
(defun work ()
  (find-file (getenv "LSP_FILE"))
  (setq-local indent-tabs-mode nil tab-width 2)
  (setq eglot-sync-connect 10)
  (add-to-list 'eglot-server-programs
               (list major-mode (getenv "LSP_PYTHON") (getenv "LSP_SERVER")
                     "--program" (getenv "LSP_PROGRAM")))
  (apply #'eglot--connect (eglot--guess-contact))
  (remove-hook 'flymake-diagnostic-functions 'sh-shellcheck-flymake t)
  (wait "attached" (lambda () (eglot-managed-p)))
  (goto-char (point-min))
  (change (lambda () (forward-line 1) (end-of-line) (insert "'")))
  (wait "faulty" (faults 1))
  (let ((fault (car (flymake-diagnostics))))
    (goto-char (flymake-diagnostic-beg fault))
    (tell (format "%d:%d %s" (1- (line-number-at-pos)) (current-column)
                  (if (string-match-p "unclosed single quote" (flymake-diagnostic-text fault))
                      "unclosed single quote" "?"))))
  (change (lambda () (goto-char (point-min)) (forward-line 1) (end-of-line) (delete-char -1)))
  (wait "faultless" (faults 0))
  (eglot-format-buffer)
  (dolist (line (split-string (string-trim-right (buffer-string)) "\n")) (tell line))
  (let ((found (jsonrpc-request (eglot-current-server) :textDocument/documentSymbol
                                (list :textDocument (eglot--TextDocumentIdentifier)))))
    (mapc (lambda (symbol) (tell (plist-get symbol :name))) found)))
(cond ((not (featurep 'eglot)) (tell "no eglot"))
      ((< emacs-major-version 30) (tell "too old")) ; Eglot 1.9 does not tell its name
      (t (condition-case why (work) (error (tell (format "%S" why))))))
(with-temp-file (getenv "LSP_TOLD")
  (dolist (line (reverse told)) (insert line "\n")))
(kill-emacs 0)
"""


def edits_by(program, room, name, source, command, column):
    """Lets an editor open a script, type a quote and take it away, format, and list the symbols; compares
    what it saw."""
    if not shutil.which(name):
        print(f"lsp: skipped: no {name}")
        return
    place = f"{room}/{name}"
    os.mkdir(place)
    for file, text in (("script.sh", ": '\rx' || f() {\necho   é\n}\n"), ("steps", source)):
        with open(f"{place}/{file}", "w", encoding="utf-8", newline="") as out:
            out.write(text)
    ours = {
        "PYTHON": sys.executable,
        "SERVER": SERVER,
        "PROGRAM": program,
        "TOLD": f"{place}/told",
        "FILE": f"{place}/script.sh",
    }
    variables = {
        **os.environ,
        **{f"LSP_{key}": value for key, value in ours.items()},
        "HOME": place,
        "LC_ALL": "C.UTF-8",
    }
    done = subprocess.run(
        command, cwd=place, env=variables, capture_output=True, stdin=subprocess.DEVNULL, timeout=60
    )
    saw = [done.stderr.decode(errors="replace")]
    if os.path.exists(ours["TOLD"]):
        with open(ours["TOLD"], encoding="utf-8", newline="") as file:
            saw = file.read().split("\n")[:-1]
    if saw in (["too old"], ["no eglot"]):
        print(f"lsp: skipped: {name}: {saw[0]}")
        return
    fault = f"1:{column} unclosed single quote"
    expect(
        f"what {name} saw",
        saw,
        ["attached", "faulty", fault, "faultless", ": '\rx' || f() {", "  echo é", "}", "f"],
    )


def editors(program, room):
    nvim = ["nvim", "--clean", "--headless", "script.sh", "-c", "luafile steps"]
    edits_by(program, room, "nvim", NEOVIM, nvim, 9)  # bytes
    edits_by(program, room, "emacs", EMACS, ["emacs", "-Q", "--batch", "-l", "./steps"], 8)  # columns
