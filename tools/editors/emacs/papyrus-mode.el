;;; papyrus-mode.el --- highlights scripts of Papyrus, the language of the Creation Kit  -*- lexical-binding: t -*-

;;; Code:

(defconst papyrus-statements
  '("ScriptName" "Extends" "Import" "Property" "EndProperty" "State" "EndState" "Function" "EndFunction" "Event" "EndEvent"
    "If" "ElseIf" "Else" "EndIf" "While" "EndWhile" "Return" "As" "New"))

(defconst papyrus-flags '("Auto" "AutoReadOnly" "Global" "Native" "Hidden" "Conditional"))

(defconst papyrus-types '("Bool" "Float" "Int" "String"))

(defconst papyrus-constants '("True" "False" "None" "Self" "Parent" "Length"))

(defconst papyrus-highlights
  `(("\\_<\\(?:Function\\|Event\\)[ \t]+\\(\\(?:\\sw\\|\\s_\\)+\\)" 1 font-lock-function-name-face)
    (,(regexp-opt papyrus-statements 'symbols) . font-lock-keyword-face)
    (,(regexp-opt papyrus-flags 'symbols) . font-lock-builtin-face)
    (,(regexp-opt papyrus-types 'symbols) . font-lock-type-face)
    (,(regexp-opt papyrus-constants 'symbols) . font-lock-constant-face)
    ("\\_<\\(?:0x[0-9A-F]+\\|[0-9]+\\(?:\\.[0-9]+\\)?\\)\\_>" . font-lock-constant-face)))

;; A `;' begins a comment of one line. Comments from `;/' to `/;' are marked as they are met, since they begin with the same sign.
(defvar papyrus-mode-syntax-table
  (let ((table (make-syntax-table)))
    (modify-syntax-entry ?\; "<" table)
    (modify-syntax-entry ?\n ">" table)
    (modify-syntax-entry ?{ "< b" table)
    (modify-syntax-entry ?} "> b" table)
    (modify-syntax-entry ?\" "\"" table)
    (modify-syntax-entry ?\\ "\\" table)
    (modify-syntax-entry ?_ "_" table)
    (dolist (sign (string-to-list "+-*/%=<>!&|"))
      (modify-syntax-entry sign "." table))
    table))

(defun papyrus-mark-comments (start end)
  "Mark the edges of comments between `;/' and `/;' from START to END."
  (goto-char start)
  (let ((inside (eq (nth 7 (syntax-ppss)) 'syntax-table)))
    (while (re-search-forward (if inside "/\\(;\\)" "\\(;\\)/") end t)
      (let ((edge (match-beginning 1)))
        (when (or inside (not (nth 8 (save-excursion (syntax-ppss edge)))))
          (put-text-property edge (1+ edge) 'syntax-table (string-to-syntax "!"))
          (setq inside (not inside)))))))

(defun papyrus-face (state)
  "The face of the text or comment that STATE stands in."
  (cond ((nth 3 state) 'font-lock-string-face)
        ((eq (char-after (nth 8 state)) ?{) 'font-lock-doc-face)
        (t 'font-lock-comment-face)))

;;;###autoload
(define-derived-mode papyrus-mode prog-mode "Papyrus"
  "Highlights scripts of Papyrus."
  (setq-local comment-start "; ")
  (setq-local comment-end "")
  (setq-local syntax-propertize-function #'papyrus-mark-comments)
  (setq-local font-lock-defaults '(papyrus-highlights nil t nil (font-lock-syntactic-face-function . papyrus-face))))

;;;###autoload
(add-to-list 'auto-mode-alist '("\\.psc\\'" . papyrus-mode))

(provide 'papyrus-mode)

;;; papyrus-mode.el ends here
