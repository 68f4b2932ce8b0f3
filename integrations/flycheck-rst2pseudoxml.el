;;; flycheck-rst2pseudoxml.el --- Check reStructuredText with rst2pseudoxml  -*- lexical-binding: t -*-

;;; Commentary:

;; Two Flycheck checkers for `rst-mode', which are used in place of the checker `rst'.  `rst-check' runs the command of this name from
;; the variable `exec-path', in the folder that has the file `.rst-known' if the page is in or below one.  Where that command is
;; missing, `rst2pseudoxml' runs the program.

;;; Code:

(require 'flycheck)

(defun flycheck-rst2pseudoxml-folder (_checker)
  "The folder whose `.rst-known' is read: that of the page, or one above it."
  (or (locate-dominating-file default-directory ".rst-known") default-directory))

(defun flycheck-rst2pseudoxml-placed (errors)
  "ERRORS, each with a line.
Flycheck leaves out an error without one, so the refusal of a whole page is shown at its first line."
  (dolist (found errors errors)
    (unless (flycheck-error-line found)
      (setf (flycheck-error-line found) 1))))

(defun flycheck-rst2pseudoxml-patterns (start)
  "The patterns of messages.  Each begins with the START of its line; a refusal may begin without."
  ;; The first line of a message that ends with a colon goes on in the next line.
  `((info line-start ,@start ":" line ": (INFO/1) " (message) line-end)
    (warning line-start ,@start ":" line ": (WARNING/2) " (message) line-end)
    (error line-start ,@start ":" line ": (" (or "ERROR/3" "SEVERE/4") ") "
           (message (or (seq (* nonl) ":\n" (* nonl)) (* nonl))) line-end)
    (error line-start (optional ,@start ": ") "rst2pseudoxml: line " line ": " (message) line-end)
    (error line-start (optional ,@start ": ") "rst2pseudoxml: " (message) line-end)))

(flycheck-define-command-checker 'rst2pseudoxml
  "A reStructuredText checker by the program rst2pseudoxml."
  :command '("rst2pseudoxml" "--report=info" "--halt=none")
  :standard-input t
  :error-patterns (flycheck-rst2pseudoxml-patterns '("<stdin>"))
  :error-filter #'flycheck-rst2pseudoxml-placed
  :modes 'rst-mode)

(flycheck-define-command-checker 'rst-check
  "A reStructuredText checker by the command rst-check."
  :command '("rst-check" "--level=info" "--" source)
  :working-directory #'flycheck-rst2pseudoxml-folder
  :error-patterns (flycheck-rst2pseudoxml-patterns '((file-name)))
  :error-filter #'flycheck-rst2pseudoxml-placed
  :modes 'rst-mode)

(add-to-list 'flycheck-checkers 'rst2pseudoxml)
(add-to-list 'flycheck-checkers 'rst-check)

(provide 'flycheck-rst2pseudoxml)
;;; flycheck-rst2pseudoxml.el ends here
