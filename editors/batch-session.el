;;; batch-session.el --- A session of dap-mode with the bridge, in batch -*- lexical-binding: t -*-

;;; Commentary:
;; Launches examples/shop/Orders.java over the bridge that BRIDGE_PROGRAM names, with breakpoints there.  Stops, steps,
;; shows variables and evaluates, sets a variable and a field, and goes on to the end.  Prints what dap-mode knows of
;; each, and what the Java program printed.  `examples/emacs.py' runs this.

;;; Code:
(setq debug-on-error nil
      backtrace-on-error-noninteractive nil
      ;; In batch an error of a process filter would end Emacs.  Here it is shown and no more, as in a window.
      command-error-function (lambda (data context _)
                               (princ (format "shown: %s%s\n" context (error-message-string data)))))
(package-initialize)
(defconst batch-session-folder (file-name-directory load-file-name))
(load (expand-file-name "bridge-dap-mode.el" batch-session-folder) nil t)
(setq bridge-dap-launcher (append bridge-dap-launcher (list "--program" (getenv "BRIDGE_PROGRAM")))
      ;; No window shows it in batch.
      dap-auto-show-output nil)
(setq dap-breakpoints-file (make-temp-file "bridge-breakpoints"))
(defconst batch-session-source (expand-file-name "../examples/shop/Orders.java" batch-session-folder))

(defun batch-session-await (test)
  "Wait until TEST gives a value, at most a minute, and return it."
  (let ((end (+ (float-time) 60))
        found)
    (while (not (or (setq found (funcall test)) (> (float-time) end)))
      (accept-process-output nil 0.05))
    found))

(defun batch-session-toggle (text)
  "Set a breakpoint at the line of TEXT, or take it away."
  (with-current-buffer (find-file-noselect batch-session-source)
    (save-excursion
      (goto-char (point-min))
      (search-forward text)
      (dap-breakpoint-toggle))))

(defun batch-session-started ()
  "Start a session and return it."
  (with-current-buffer (find-file-noselect batch-session-source)
    (bridge-dap-debug-file))
  (dap--cur-session))

(defun batch-session-stopped (session)
  "Wait until SESSION shows a frame, print where it and the cursor stand, and return the frame."
  (let ((frame (batch-session-await (lambda () (dap--debug-session-active-frame session)))))
    (princ (format "stopped: %s, line %d, cursor in %s at line %d\n" (gethash "name" frame) (gethash "line" frame)
                   (buffer-name (window-buffer)) (with-current-buffer (window-buffer) (line-number-at-pos))))
    frame))

(defun batch-session-locals (session frame)
  "Print the variables of FRAME as SESSION shows them, and return their reference."
  (let* ((scopes (gethash "scopes" (dap-request session "scopes" :frameId (gethash "id" frame))))
         (locals (gethash "variablesReference" (car scopes)))
         (shown (dap-ui-render-variables session locals nil)))
    (princ (format "%s: %s\n" (gethash "name" (car scopes))
                   (mapconcat (lambda (each) (substring-no-properties (plist-get each :label))) shown "; ")))
    locals))

(defun batch-session-set (session reference name value)
  "Set the variable NAME of what has this REFERENCE to VALUE, and print what SESSION is answered."
  (let ((said (dap-request session "setVariable" :variablesReference reference :name name :value value)))
    (princ (format "set: %s = %s\n" name (gethash "value" said)))))

(defun batch-session-evaluate (session frame expression)
  "Print the value of EXPRESSION in FRAME."
  (let ((said (dap-request session "evaluate" :expression expression :frameId (gethash "id" frame) :context "hover")))
    (princ (format "evaluated: %s = %s\n" expression (gethash "result" said)))
    said))

(batch-session-toggle "total += cost")
(batch-session-toggle "while (isOpen)")
(let* ((session (batch-session-started))
       (frame (batch-session-stopped session)))
  (batch-session-evaluate session frame "line.thing")
  (batch-session-set session (batch-session-locals session frame) "cost" "1")
  (dolist (step '(dap-next dap-next dap-step-in dap-step-out))
    (funcall step session)
    (batch-session-stopped session))
  (princ (format "threads: %s\n" (mapconcat (lambda (thread) (gethash "name" thread))
                                            (gethash "threads" (dap-request session "threads")) ", ")))
  (batch-session-toggle "total += cost")
  (dap-continue session (dap--debug-session-thread-id session))
  (setq frame (batch-session-stopped session))
  (let ((shop (batch-session-evaluate session frame "this")))
    (batch-session-set session (gethash "variablesReference" shop) "isOpen" "false"))
  (dap-continue session (dap--debug-session-thread-id session))
  (batch-session-await (lambda () (eq (dap--debug-session-state session) 'terminated)))
  (princ (format "state: %s\n" (dap--debug-session-state session)))
  (with-current-buffer (dap--debug-session-output-buffer session)
    (dolist (line (split-string (buffer-string) "\n" t))
      (princ (format "printed: %s\n" line)))))
(delete-file dap-breakpoints-file)

(provide 'batch-session)
;;; batch-session.el ends here
