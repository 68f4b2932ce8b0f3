;;; test-emacs.el --- Tests what Emacs does with rst2pseudoxml  -*- lexical-binding: t -*-

;; emacs -q --batch -l test-emacs.el
;;
;; The program has to be on the PATH.  Each outcome is printed, and a wrong one is an error.  Without Flycheck the checkers are
;; skipped, with one line.  If `rst-check' is on the PATH, it is the checker that is tested.

(require 'rst)

(defvar test-here (file-name-directory load-file-name))

(defun test-same (name wanted got)
  "Print that NAME passed, or fail, as GOT isn't WANTED."
  (unless (equal wanted got)
    (error "%s: wanted %S, got %S" name wanted got))
  (message "passed: %s" name))

(defun test-rst-mode ()
  "The tree of a buffer by the command of `rst-mode'."
  (setf (cadr (assq 'pseudoxml rst-compile-toolsets)) "rst2pseudoxml --halt=none")
  (with-temp-buffer
    (insert "Some *text*\n")
    (rst-mode)
    (rst-compile-pseudo-region))
  (with-current-buffer "*pseudoxml*"
    (test-same "rst-compile-pseudo-region"
               (concat "<document source=\"<stdin>\">\n    <paragraph>\n        Some \n"
                       "        <emphasis>\n            text\n")
               (buffer-string))))

(defun test-errors (text)
  "What Flycheck finds in TEXT: the line, level and message of each."
  (with-temp-buffer
    (insert text)
    (rst-mode)
    (flycheck-mode)
    (test-same "Flycheck, its checker"
               (if (executable-find "rst-check") 'rst-check 'rst2pseudoxml)
               (flycheck-get-checker-for-buffer))
    (flycheck-buffer)
    (while (flycheck-running-p)
      (accept-process-output nil 0.1))
    (mapcar (lambda (found)
              (list (flycheck-error-line found) (flycheck-error-level found) (flycheck-error-message found)))
            flycheck-current-errors)))

(defun test-flycheck ()
  "The checker, on messages of each level and on a page that is refused."
  (load (expand-file-name "flycheck-rst2pseudoxml.el" test-here) nil t)
  (test-same "Flycheck, messages"
             '((1 info "Enumerated list start value not ordinal-1: \"c\" (ordinal 3)")
               (3 warning "Inline emphasis start-string without end-string.")
               (6 error "Unexpected section title.")
               (8 error "Error in \"image\" directive:\n1 argument(s) required, 0 supplied."))
             (test-errors "c. one\n\nA *word\n\n- One\n  ===\n\n.. image::\n"))
  (test-same "Flycheck, no messages" nil (test-errors "A *word*\n"))
  (test-same "Flycheck, a refusal with a line"
             '((3 error "nesting too deep"))
             (test-errors (concat "text\n\n" (apply #'concat (make-list 251 "- ")) "a\n")))
  (test-same "Flycheck, a refusal without a line"
             '((1 error "not UTF-8 at byte 1"))
             (let ((process-coding-system-alist '(("" . latin-1)))
                   (coding-system-for-write 'latin-1))
               (test-errors "h\u00e9\n")))
  (when (executable-find "rst-check")
    (test-known)))

(defun test-known ()
  "The checker by `rst-check', on a page below the folder that has a list of known names."
  (let* ((folder (make-temp-file "known" t))
         (default-directory (file-name-as-directory (expand-file-name "pages" folder))))
    (make-directory default-directory)
    (write-region "role:ref\n" nil (expand-file-name ".rst-known" folder))
    (test-same "Flycheck, known names"
               '((3 error "Unknown interpreted text role \"doc\"."))
               (test-errors ":ref:`a`\n\n:doc:`b`\n"))
    (delete-directory folder t)))

(test-rst-mode)
(if (require 'flycheck nil t)
    (test-flycheck)
  (message "skipped: Flycheck, as this Emacs has none"))
;;; test-emacs.el ends here
