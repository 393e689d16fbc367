;;; ceptre.el --- Worlds and transcripts of Ceptre  -*- lexical-binding: t -*-

;; (load "/path/to/editors/emacs/ceptre.el") in the init file gives files that end with .cep a mode with colours, and
;; starts the language server by eglot: Emacs 29 has it, and Debian's elpa-eglot brings it to Emacs 28.

;;; Code:

(defvar ceptre-server '("ceptre-server")
  "The command of the language server.")

(defvar ceptre-font-lock-keywords
  '(("\\_<\\(type\\|pred\\|bwd\\|fact\\|stage\\|context\\|qui\\)\\_>" . font-lock-keyword-face)
    ("#[A-Za-z]+" . font-lock-preprocessor-face)
    ("^\\s-*\\([a-z][A-Za-z0-9_/']*\\)[^:%\n]*:" 1 font-lock-function-name-face)
    ("\\_<[A-Z][A-Za-z0-9_/']*\\_>" . font-lock-variable-name-face))
  "Colours of words.")

;;;###autoload
(define-derived-mode ceptre-mode prog-mode "Ceptre"
  "Mode for worlds."
  (modify-syntax-entry ?% "<" ceptre-mode-syntax-table)
  (modify-syntax-entry ?\n ">" ceptre-mode-syntax-table)
  (modify-syntax-entry ?_ "_" ceptre-mode-syntax-table)
  (modify-syntax-entry ?/ "_" ceptre-mode-syntax-table)
  (modify-syntax-entry ?' "_" ceptre-mode-syntax-table)
  (setq-local comment-start "% ")
  (setq-local comment-end "")
  (setq-local font-lock-defaults '(ceptre-font-lock-keywords)))

;;;###autoload
(add-to-list 'auto-mode-alist '("\\.cep\\'" . ceptre-mode))

(with-eval-after-load 'eglot
  (add-to-list 'eglot-server-programs (cons 'ceptre-mode ceptre-server)))

(when (require 'eglot nil t)
  (add-hook 'ceptre-mode-hook #'eglot-ensure))

(provide 'ceptre)
;;; ceptre.el ends here
