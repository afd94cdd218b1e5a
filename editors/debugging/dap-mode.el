;;; dap-mode.el --- debugs talft programs in Emacs, with dap-mode -*- lexical-binding: t -*-
;; Load it in init.el: docs/DEBUGGING.md says how. The adapter is `dap' in $TALFT_TOOLS, or `talft-dap' on PATH.
(require 'dap-mode)
(defvar talft-dap (let ((tools (getenv "TALFT_TOOLS"))) (if tools (expand-file-name "dap" tools) "talft-dap")))
(defun talft-dap-populate (conf)
  "Fills in the missing properties of CONF."
  (dap--put-if-absent conf :dap-server-path (list talft-dap))
  (dap--put-if-absent conf :program (buffer-file-name))
  (dap--put-if-absent conf :cwd default-directory)
  conf)
(dap-register-debug-provider "talft" #'talft-dap-populate)
(dap-register-debug-template "talft: this file" (list :type "talft" :request "launch" :name "talft"))
(defun talft-dap-send (command)
  "Asks the adapter for COMMAND."
  (dap--send-message (dap--make-request command (list :threadId 1)) (dap--resp-handler) (dap--cur-session-or-die)))
(defun talft-dap-step-back ()
  "Steps back."
  (interactive)
  (talft-dap-send "stepBack"))
(defun talft-dap-reverse-continue ()
  "Runs back to the last breakpoint, or to the start."
  (interactive)
  (talft-dap-send "reverseContinue"))
