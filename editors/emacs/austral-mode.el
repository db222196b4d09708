;;; austral-mode.el --- Editing Austral -*- lexical-binding: t -*-

;; Colours, comments, indentation, the layout of files as they are saved, and the language server where Eglot is there.

;;; Code:

(defconst austral-keywords
  '("module" "body" "is" "end" "import" "as" "pragma" "constant" "type" "record" "union" "case" "when" "of" "do"
    "function" "generic" "typeclass" "instance" "method" "let" "var" "if" "then" "else" "while" "for" "from" "to"
    "borrow" "in" "return" "skip" "and" "or" "not"))

(defconst austral-types
  '("Free" "Linear" "Type" "Region" "Unit" "Bool" "Nat8" "Nat16" "Nat32" "Nat64" "Int8" "Int16" "Int32" "Int64"
    "Index" "Span" "Static"))

(defun austral--bad-escape (limit)
  "Look for an escape before LIMIT that no text may have."
  (let (found)
    (while (and (not found) (re-search-forward "\\\\\\(.\\)" limit t))
      (setq found (and (not (string-match-p "[nrt\"\\\\]" (match-string 1)))
                       (save-match-data (nth 3 (syntax-ppss (match-beginning 0)))))))
    found))

(defconst austral-font-lock
  `((,(regexp-opt austral-keywords 'symbols) . font-lock-keyword-face)
    (,(regexp-opt austral-types 'symbols) . font-lock-type-face)
    (,(regexp-opt '("nil" "true" "false") 'symbols) . font-lock-constant-face)
    ("\\_<\\(?:function\\|method\\)\\s-+\\([A-Za-z][A-Za-z0-9_]*\\)" 1 font-lock-function-name-face)
    (austral--bad-escape 0 font-lock-warning-face t)))

(defvar austral-mode-syntax-table
  (let ((table (make-syntax-table)))
    (modify-syntax-entry ?_ "_" table)
    (modify-syntax-entry ?- ". 12" table)
    (modify-syntax-entry ?\n ">" table)
    (modify-syntax-entry ?' "." table)
    (dolist (sign '(?& ?! ?~ ?: ?= ?+ ?* ?/ ?< ?>))
      (modify-syntax-entry sign "." table))
    table))

(defvar austral-indent-offset 2 "How many blanks a step of indentation is.")

;; Indentation: one step for each declaration, block and arm that is open. The words from the last declaration of the
;; module on are gone over, and what is open is kept, as editors/server/austral_layout.py does.

(defconst austral-top
  "^[ \t]*\\(?:import\\|module\\|constant\\|type\\|record\\|union\\|function\\|typeclass\\|instance\\|generic\\)\\_>")

(defvar austral--open nil "What is open, the innermost first: pairs of a kind and an indentation.")
(defvar austral--first nil "The first word of what is gone over.")
(defvar austral--indent 0 "How far its line is indented.")
(defvar austral--choices nil "Its expressions `if' that have no `else' yet.")
(defvar austral--ends nil "Whether it begins with `end'.")

(defun austral--done ()
  (setq austral--first nil austral--choices nil austral--ends nil))

(defun austral--push (kind)
  (push (cons kind austral--indent) austral--open)
  (austral--done))

(defun austral--top (kind)
  (eq (caar austral--open) kind))

(defun austral--close (kind)
  (when (austral--top kind) (pop austral--open)))

(defun austral--begin (word)
  "Take WORD, the first of a declaration, a statement or a part of one."
  (pcase word
    ("end" (setq austral--ends t))
    (";" (austral--done))
    ("else" (austral--close 'block))
    ("when" (austral--close 'arm))
    ("case" (austral--close 'field))))

(defun austral--end (word)
  "Take WORD behind `end'."
  (pcase word
    ("case" (austral--close 'arm) (austral--close 'case))
    ((or "if" "while" "for" "borrow") (austral--close 'block))
    ("module" (setq austral--open nil))
    (";" (when (equal austral--first "end") (austral--close 'field) (austral--close 'declaration))))
  (if (member word '(";" ".")) (austral--done) (setq austral--first "ended")))

(defun austral--go-on (word)
  "Take any other WORD."
  (pcase word
    ("if" (if (equal austral--first "else") (setq austral--first "else if") (push 'if austral--choices)))
    ((and "then" (guard (eq (car austral--choices) 'if))) (setcar austral--choices 'then))
    ((and "else" (guard (eq (car austral--choices) 'then))) (pop austral--choices))
    ("is" (austral--push (pcase austral--first ("module" 'module) ("case" 'field) (_ 'declaration))))
    ("then" (austral--push 'block))
    ("do" (austral--push (if (equal austral--first "when") 'arm 'block)))
    ("of" (austral--push 'case))
    (";" (austral--done))))

(defun austral--take (word)
  "Go on by WORD, which stands before point."
  (when (and (equal austral--first "else") (not (equal word "if")))
    (austral--push 'block))
  (cond ((null austral--first)
         (setq austral--first word austral--indent (current-indentation))
         (austral--begin word))
        (austral--ends (austral--end word))
        (t (austral--go-on word))))

(defun austral--word (limit)
  "The next word or sign before LIMIT, behind which point goes; nothing where there is none."
  (forward-comment (buffer-size))
  (when (< (point) limit)
    (cond ((looking-at "\"") (goto-char (min limit (or (ignore-errors (scan-sexps (point) 1)) limit))) "1")
          ((looking-at "[A-Za-z0-9_]+") (goto-char (match-end 0)) (match-string-no-properties 0))
          (t (forward-char) (char-to-string (char-before))))))

(defun austral--from (line)
  "Where the last declaration before the place LINE begins."
  (goto-char line)
  (if (not (re-search-backward austral-top nil t))
      (goto-char (point-min))
    (let ((here (point)))
      ;; `generic [..]' may stand on a line of its own before what it belongs to.
      (forward-line -1)
      (unless (and (looking-at "[ \t]*generic\\_>[^;\n]*$") (not (looking-at ".*\\_<is\\_>")))
        (goto-char here)))))

(defun austral--of-end (word)
  "How far a line is indented that begins with `end' and WORD."
  (let ((wanted (pcase word
                  ("case" 'case)
                  ("module" 'module)
                  (_ (cond ((austral--top 'arm) 'case) ((austral--top 'field) 'declaration))))))
    (or (cdr (if wanted (assq wanted austral--open) (car austral--open))) 0)))

(defun austral--of (word next)
  "How far a line is indented that begins with WORD and NEXT."
  (cond ((and (equal austral--first "else") (not (equal word "if"))) (+ austral--indent austral-indent-offset))
        (austral--first
         (if (or austral--ends (equal austral--first "generic")
                 (member word '(")" "]" "}" "is" "then" "do" "of")))
             austral--indent
           (+ austral--indent austral-indent-offset)))
        ((equal word "end") (austral--of-end next))
        ((null austral--open) 0)
        ((or (equal word "else") (and (equal word "when") (austral--top 'arm))
             (and (equal word "case") (austral--top 'field)))
         (cdar austral--open))
        (t (+ (cdar austral--open) austral-indent-offset))))

(defun austral-indentation ()
  "How far the line at point should be indented."
  (save-excursion
    (beginning-of-line)
    (let ((line (point)) (stop (line-end-position)) austral--open (austral--indent 0) word)
      (austral--done)
      (austral--from line)
      (when (and (< (point) line) (looking-at austral-top) (not (looking-at "[ \t]*\\(?:import\\|module\\)\\_>")))
        (push (cons 'module 0) austral--open))
      (while (and (< (point) line) (setq word (austral--word line)))
        (austral--take word))
      (goto-char line)
      (let ((word (austral--word stop)))
        (austral--of word (austral--word stop))))))

(defun austral-indent-line ()
  "Indent the line at point, unless it begins within a text."
  (interactive)
  (unless (nth 3 (save-excursion (syntax-ppss (line-beginning-position))))
    (let ((wanted (austral-indentation)) (inside (> (current-column) (current-indentation))))
      (if inside (save-excursion (indent-line-to wanted)) (indent-line-to wanted)))))

(defun austral--electric (_)
  "Whether a word that dedents its line has just been typed."
  (and (looking-back "^[ \t]*\\(?:end\\|else\\|when\\|case\\)" (line-beginning-position)) 'do-indent))

;; The layout of a file, by the compiler's command `format'.

(defvar austral-program (or (getenv "AUSTRAL_PROGRAM") "austral") "The compiler.")
(defvar austral-format-on-save t "Whether a file is laid out before it is saved.")

(defun austral-format-buffer ()
  "Lay the buffer out.  It stays as it is where it can't be read, or where no compiler is there."
  (interactive)
  (when (executable-find austral-program)
    (let ((file (make-temp-file "austral" nil ".aum")) (laid (generate-new-buffer " *austral*"))
          (coding-system-for-read 'utf-8-unix) (coding-system-for-write 'utf-8-unix))
      (unwind-protect
          (progn
            (write-region nil nil file nil 'silent)
            (when (eql 0 (call-process austral-program nil (list laid nil) nil "format" file))
              (replace-buffer-contents laid)))
        (delete-file file)
        (kill-buffer laid)))))

(defun austral--save ()
  (when austral-format-on-save (austral-format-buffer)))

;;;###autoload
(define-derived-mode austral-mode prog-mode "Austral"
  "A mode for files of Austral."
  (setq-local comment-start "-- " comment-end "" comment-start-skip "--+\\s-*")
  (setq-local indent-tabs-mode nil)
  (setq-local indent-line-function #'austral-indent-line)
  (add-hook 'electric-indent-functions #'austral--electric nil t)
  (add-hook 'before-save-hook #'austral--save nil t)
  (setq-local font-lock-defaults '(austral-font-lock)))

;;;###autoload
(add-to-list 'auto-mode-alist '("\\.au[im]\\'" . austral-mode))

(defconst austral-server
  (expand-file-name "../server/austral_server.py" (file-name-directory (or load-file-name buffer-file-name)))
  "The language server of this clone.")

(with-eval-after-load 'eglot
  (add-to-list 'eglot-server-programs `(austral-mode . ("python3" ,austral-server))))

(provide 'austral-mode)
;;; austral-mode.el ends here
