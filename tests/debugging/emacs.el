;;; emacs.el --- Emacs with dap-mode as a client of tools/dap -*- lexical-binding: t -*-
;; It debugs the file $PROGRAM with a fault, steps forward and back, and writes the place of each stop to the file
;; $TOLD.
(require 'dap-mode)
(load (expand-file-name "../../editors/debugging/dap-mode.el" (file-name-directory load-file-name)))
(setq dap-auto-configure-features nil dap-auto-show-output nil)
(defvar told nil)
(defvar plan (list #'dap-next #'dap-next #'dap-step-in (lambda (_) (talft-dap-step-back))
                   (lambda (session) (dap-continue session 1))))

(defun place-of (session)
  "The line and the name of the frame of SESSION."
  (let ((frame (dap--debug-session-active-frame session)))
    (format "line %s: %s" (gethash "line" frame) (gethash "name" frame))))

(defun stopped (session)
  "Notes where SESSION is, and makes the next move."
  (when (dap--debug-session-active-frame session)
    (push (place-of session) told)
    (if plan
        (run-with-timer 0.3 nil (pop plan) session)
      (with-temp-file (getenv "TOLD") (insert (mapconcat #'identity (reverse told) "\n") "\n")))))

(add-hook 'dap-stack-frame-changed-hook #'stopped)
(find-file (getenv "PROGRAM"))
(run-with-timer 1 nil (lambda () (dap-debug (list :type "talft" :request "launch" :name "talft" :fault "4:r1:6"
                                                  :program (getenv "PROGRAM")))))
