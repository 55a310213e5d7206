;;; bridge-dap-mode.el --- Java programs by the bridge, for dap-mode -*- lexical-binding: t -*-

;;; Commentary:
;; Load this file, and bind a key to one of its two commands:
;;
;; - `bridge-dap-debug-file' runs the Java file of the buffer, and stops at its breakpoints.
;; - `bridge-dap-debug-test' runs the test class of the buffer, by the build tool of its project.
;;
;; Or choose one of its templates in `M-x dap-debug':
;;
;; - "Java file, by the bridge" and "Java test, by the bridge" do the same.
;; - "Java on port 5005, by the bridge" attaches to a Java machine that listens there.
;; - "Java by the bridge" connects to a bridge that listens on port 4711, as `examples/debug.py --port 4711' starts it.

;;; Code:
(require 'dap-mode)
;; Filters of exceptions stand there, and dap-mode asks for them wherever a breakpoint is set.
(require 'dap-ui)

(defvar bridge-dap-launcher
  (list (expand-file-name "launch.py" (file-name-directory (or load-file-name buffer-file-name))))
  "The command that dap-mode starts as its debug adapter, with its words.")

(defun bridge-dap--project ()
  "Return the outermost folder around the buffer's file that has a file of Maven or Gradle, or its own folder."
  (let ((folder default-directory)
        (found nil))
    (while (setq folder (locate-dominating-file
                         folder (lambda (each) (seq-some (lambda (name) (file-exists-p (expand-file-name name each)))
                                                         '("pom.xml" "build.gradle" "build.gradle.kts")))))
      (setq found folder
            folder (file-name-directory (directory-file-name folder))))
    (expand-file-name (or found default-directory))))

(defun bridge-dap--file ()
  "Return what launches the Java file of the buffer."
  (list :main buffer-file-name :cwd (bridge-dap--project)))

(defun bridge-dap--test ()
  "Return what launches the test class of the buffer."
  (list :test (file-name-base buffer-file-name) :cwd (bridge-dap--project)))

(defun bridge-dap--filled (settings)
  "Return SETTINGS with the command of the launcher, and with what their `:of' names, where they launch something."
  (let ((of (plist-get settings :of)))
    (append (and of (funcall of))
            (and (not (plist-get settings :debugServer)) (list :dap-server-path bridge-dap-launcher))
            (cl-loop for (key value) on settings by #'cddr unless (eq key :of) append (list key value)))))

(dap-register-debug-provider "bridge" #'bridge-dap--filled)

(dap-register-debug-template
 "Java file, by the bridge"
 (list :type "bridge"
       :request "launch"
       :of #'bridge-dap--file))

(dap-register-debug-template
 "Java test, by the bridge"
 (list :type "bridge"
       :request "launch"
       :of #'bridge-dap--test))

(dap-register-debug-template
 "Java on port 5005, by the bridge"
 (list :type "bridge"
       :request "attach"
       :target "127.0.0.1:5005"
       :sourceRoots ["/home/me/project/src"]))

(dap-register-debug-template
 "Java by the bridge"
 (list :type "bridge"
       :request "attach"
       :host "127.0.0.1"
       :debugServer 4711
       :sourceRoots ["/home/me/project/src"]))

(defun bridge-dap-debug-file ()
  "Run the Java file of this buffer, and stop at its breakpoints."
  (interactive)
  (dap-debug (list :type "bridge" :request "launch" :name (buffer-name) :of #'bridge-dap--file)))

(defun bridge-dap-debug-test ()
  "Run the test class of this buffer by the build tool of its project, and stop at its breakpoints."
  (interactive)
  (dap-debug (list :type "bridge" :request "launch" :name (buffer-name) :of #'bridge-dap--test)))

(provide 'bridge-dap-mode)
;;; bridge-dap-mode.el ends here
