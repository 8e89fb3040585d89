;;; eglot.el --- Emacs as a client -*- lexical-binding: t -*-
;; What Eglot's own commands make of a buffer. BOLGWYR is the command, FILE a module whose text is made here.

(package-initialize)
(require 'eglot)
(require 'cl-lib)

(defvar bolgwyr-tried 0)
(defvar bolgwyr-failed 0)

(defun bolgwyr-expect (name found wanted)
  (cl-incf bolgwyr-tried)
  (unless (equal found wanted)
    (cl-incf bolgwyr-failed)
    (message "FAILED: %s\n  wanted: %S\n  found:  %S" name wanted found)))

(defun bolgwyr-wait (name holds)
  "Wait until HOLDS gives something."
  (let ((end (+ (float-time) 120)))
    (while (and (not (funcall holds)) (< (float-time) end))
      (accept-process-output nil 0.1))
    (bolgwyr-expect name (and (funcall holds) t) t)))

(defun bolgwyr-found ()
  (sort (mapcar (lambda (one) (format "%d:%s" (line-number-at-pos (flymake-diagnostic-beg one)) (flymake-diagnostic-text one)))
                (flymake-diagnostics))
        #'string<))

(defun bolgwyr-line (number)
  (save-excursion
    (goto-char (point-min))
    (forward-line (1- number))
    (buffer-substring-no-properties (point) (line-end-position))))

(defun bolgwyr-go (text)
  "Go to the start of TEXT."
  (goto-char (point-min))
  (search-forward text)
  (goto-char (match-beginning 0)))

(defun bolgwyr-try ()
  (let ((server (apply #'eglot--connect (eglot--guess-contact))))
    (flymake-start)
    (bolgwyr-wait "diagnostics" (lambda () (equal (length (flymake-diagnostics)) 1)))
    (bolgwyr-expect "a diagnostic" (bolgwyr-found) '("2:bolgwyr [no-unused]: parameter 'unused' is never used"))

    (bolgwyr-go "alpha;")
    (let* ((found (xref-backend-definitions 'eglot (xref-backend-identifier-at-point 'eglot)))
           (place (xref-item-location (car found))))
      (bolgwyr-expect "definition" (xref-location-line place) 1))
    (bolgwyr-expect "references" (length (xref-backend-references 'eglot (xref-backend-identifier-at-point 'eglot))) 2)
    (bolgwyr-expect "outline" (flatten-tree (mapcar (lambda (group) (mapcar #'car (cdr group))) (eglot-imenu))) '("alpha" "beta" "add"))

    (eglot-rename "gamma")
    (bolgwyr-expect "rename" (bolgwyr-line 3) "  return first + gamma;")
    (bolgwyr-expect "a property that is written out" (bolgwyr-line 1) "const { alpha: gamma, beta } = globalThis; // é𝒳")
    (bolgwyr-go "gamma;")
    (bolgwyr-expect "a refusal" (condition-case fault (progn (eglot-rename "first") nil) (jsonrpc-error (alist-get 'jsonrpc-error-message (cddr fault))))
                    "line 3: `first` here would mean the one of 2:22")

    (bolgwyr-go "unused")
    (eglot-code-actions (point) (point) "quickfix" t)
    (bolgwyr-expect "a code action" (bolgwyr-line 2) "/* 𝒳 */ function add(first, _unused) {")
    ;; No idle timer runs here that would tell of the change.
    (eglot--signal-textDocument/didChange)
    (bolgwyr-wait "no diagnostics" (lambda () (null (flymake-diagnostics))))

    (bolgwyr-go "add(beta)")
    (insert "/*é𝒳*/ missing(); ")
    (eglot--signal-textDocument/didChange)
    (bolgwyr-wait "diagnostics after a change" (lambda () (flymake-diagnostics)))
    (bolgwyr-expect "a diagnostic of the changed text" (bolgwyr-found) '("5:bolgwyr [no-undeclared]: 'missing' is not declared"))
    (bolgwyr-expect "its place" (buffer-substring-no-properties (flymake-diagnostic-beg (car (flymake-diagnostics))) (flymake-diagnostic-end (car (flymake-diagnostics))))
                    "missing")
    (eglot-shutdown server)
    (bolgwyr-expect "the end" (jsonrpc-running-p server) nil)))

(let ((eglot-server-programs `((js-mode . (,(getenv "BOLGWYR") "lsp" "--stdio"))))
      (eglot-sync-connect 120)
      (eglot-connect-timeout 120)
      (eglot-confirm-server-initiated-edits nil)
      (jsonrpc-default-request-timeout 120))
  (with-temp-file (getenv "FILE")
    (insert "const { alpha, beta } = globalThis; // é𝒳\n/* 𝒳 */ function add(first, unused) {\n  return first + alpha;\n}\nadd(beta);\n"))
  (with-current-buffer (find-file-noselect (getenv "FILE"))
    (js-mode)
    (bolgwyr-try)
    (set-buffer-modified-p nil)))
(message "Emacs: %d of %d as they should be" (- bolgwyr-tried bolgwyr-failed) bolgwyr-tried)
(kill-emacs (if (= bolgwyr-failed 0) 0 1))
