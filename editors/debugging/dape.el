;;; dape.el --- debugs talft programs in Emacs 29 and later, with dape -*- lexical-binding: t -*-
;; Load it in init.el: docs/DEBUGGING.md says how. The adapter is `dap' in $TALFT_TOOLS, or `talft-dap' on PATH.
(with-eval-after-load 'dape
  (add-to-list 'dape-configs
               `(talft modes (asm-mode fundamental-mode prog-mode)
                       command ,(let ((tools (getenv "TALFT_TOOLS"))) (if tools (expand-file-name "dap" tools) "talft-dap"))
                       :type "talft" :request "launch" :program dape-buffer-default :stopOnEntry t)))
