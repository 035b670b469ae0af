;;; gemivaloon.el --- Edit Twelf signatures and check them -*- lexical-binding: t -*-

;; Package-Requires: ((emacs "26.1"))

;;; Commentary:

;; Put this into your init file, with the folder of this file:
;;
;;     (add-to-list 'load-path "/path/to/editors/emacs")
;;     (autoload 'gemivaloon-mode "gemivaloon" "Edit Twelf signatures." t)
;;     (add-to-list 'auto-mode-alist '("\\.elf\\'" . gemivaloon-mode))
;;
;; The keys are those of Twelf's own mode where it has them:
;;
;;     C-c C-s   save the file and check it      C-c C-d   check the declaration at point
;;     C-c C-c   check the configuration         C-c c     show the declaration of the name at point
;;     C-c `     go to the next refusal          C-c =     go to the refusal again
;;     C-c C-u   show the prover's buffer        C-c C-i   end the prover
;;     C-c <, >  set or get a parameter          C-c C-w   ask why the refused declaration is refused
;;     TAB       indent the line                 C-M-q     indent the declaration
;;
;; All stand in the menu `Gemivaloon' too, with the loop of queries and a command of your own.  C-g breaks off an answer; it ends
;; the prover, which is started anew when it is asked for something.

;;; Code:

(require 'comint)
(require 'compile)
(require 'easymenu)
(require 'seq)
(require 'subr-x)

(defgroup gemivaloon nil "Edit Twelf signatures and check them." :group 'languages)

(defconst gemivaloon-folder
  (expand-file-name "../../" (file-name-directory (or load-file-name buffer-file-name default-directory)))
  "The folder with the scripts and pages of the prover, in which this file stands two folders below.")

(defcustom gemivaloon-program (expand-file-name "twelf" gemivaloon-folder) "The prover." :type 'file)

(defcustom gemivaloon-indent 3 "How far a declaration's further lines stand to the right." :type 'integer)

(defcustom gemivaloon-seconds 3600
  "How long an answer is waited for; the first one comes when the program is built."
  :type 'number)

(defcustom gemivaloon-configuration "sources.cfg"
  "The name of the file that lists a signature's files: words apart by white space, with comments from % to the end of a line."
  :type 'string)

(defvar gemivaloon-buffer-name "*gemivaloon*" "The name of the prover's buffer.")
(defvar gemivaloon-loop nil "Whether the loop of queries was begun in the prover's buffer.")
(defvar gemivaloon-refusals nil "The refusals of the last check, each a list of a marker and a line.")
(defvar gemivaloon-next nil "Those of the refusals that weren't visited yet.")
(defvar gemivaloon-answer-end nil "Where the last answer ends in the prover's buffer.")
(defvar gemivaloon-current nil "The refusal that was visited last.")

;; Text: what is highlighted, and how lines are indented.

(defconst gemivaloon-name "[^][:.(){}%\" \t\n]+" "A name.")
(defconst gemivaloon-infix "\\(?:->\\|<-\\|[:=]\\)\\(?:[ \t]+\\|$\\)" "What hangs to the left of a line's text.")

(defvar gemivaloon-mode-syntax-table
  (let ((table (make-syntax-table)))
    (dotimes (it 128) (when (and (> it 32) (< it 127) (not (eq (char-syntax it) ?w))) (modify-syntax-entry it "_" table)))
    (dolist (it '((?\( . "()") (?\) . ")(") (?\{ . "(}") (?\} . "){") (?\[ . "(]") (?\] . ")[")
                  (?. . ".") (?: . ".") (?\" . ".") (?% . ".") (?\n . ">")))
      (modify-syntax-entry (car it) (cdr it) table))
    table)
  "Each character that ends no name may stand in one.")

(defun gemivaloon-syntax-propertize (start end)
  "Mark the comments between START and END: a line's, and those in brackets, which nest."
  (goto-char start)
  (let ((from (nth 8 (syntax-ppss start))))
    (when (and from (eq (char-after (1+ from)) ?\{)) (goto-char from)))
  (while (re-search-forward "%\\(?:\\({\\)\\|[% \t\n]\\|\\'\\)" end t)
    (let ((begin (match-beginning 0)))
      (cond ((match-beginning 1)
             (let ((level 1))
               (while (and (> level 0) (re-search-forward "%{\\|}%" nil t))
                 (setq level (+ level (if (eq (char-before) ?\{) 1 -1))))
               (put-text-property begin (1+ begin) 'syntax-table '(14))
               (when (= level 0) (put-text-property (1- (point)) (point) 'syntax-table '(14)))))
            (t (put-text-property begin (1+ begin) 'syntax-table '(11))
               (goto-char begin)
               (end-of-line))))))

(defvar gemivaloon-font-lock
  `(("%[a-z]+" . font-lock-keyword-face)
    (,(concat "^\\(" gemivaloon-name "\\)[ \t]*[:=]\\(?:[ \t]\\|$\\)") 1 font-lock-function-name-face)
    (,(concat "[[{][ \t]*\\(" gemivaloon-name "\\)") 1 font-lock-variable-name-face)
    ("\\_<type\\_>" . font-lock-type-face)
    ("\\_<\\(?:->\\|<-\\|=\\|_\\)\\_>" . font-lock-builtin-face)
    ("\\_<[A-Z]\\(?:\\sw\\|\\s_\\)*\\_>" . font-lock-variable-name-face)))

(defun gemivaloon-dot-p (place)
  "Whether the dot at PLACE ends a declaration."
  (save-excursion (and (not (nth 8 (syntax-ppss place))) (not (eq (char-before place) ?%)))))

(defun gemivaloon-start-at (place)
  "Where the declaration begins to which the text at PLACE belongs, or the next one."
  (save-excursion
    (goto-char (or (nth 8 (save-excursion (syntax-ppss place))) place))
    (while (and (re-search-backward "\\." nil 'move) (not (gemivaloon-dot-p (point)))))
    (when (eq (char-after) ?.) (forward-char))
    (forward-comment (buffer-size))
    (point)))

(defun gemivaloon-declaration-start ()
  "Where the declaration at point begins; behind a dot that ends a line it is the one that the dot ends."
  (let ((ends-line (and (eq (char-before) ?.) (looking-at "[ \t]*\\(?:%.*\\)?$"))))
    (gemivaloon-start-at (if ends-line (1- (point)) (point)))))

(defun gemivaloon-declaration-end (start)
  "The place behind the dot of the declaration that begins at START; nil where it has none."
  (save-excursion
    (goto-char start)
    (let (found)
      (while (and (not found) (re-search-forward "\\." nil t))
        (setq found (gemivaloon-dot-p (1- (point)))))
      (and found (point)))))

(defun gemivaloon-indentation ()
  "The column at which this line's text belongs; nil for what stands in a comment."
  (save-excursion
    (back-to-indentation)
    (let* ((line (point)) (state (syntax-ppss)) (hang (if (looking-at gemivaloon-infix) (- (match-end 0) (point)) 0))
           (start (gemivaloon-start-at (line-beginning-position))))
      (cond ((nth 4 state) nil)
            ((looking-at "%%%") 0)
            ((looking-at "[])}]") (goto-char (or (nth 1 state) line)) (current-column))
            ((nth 1 state)
             (goto-char (1+ (nth 1 state)))
             (skip-chars-forward " \t")
             (max 0 (- (current-column) hang)))
            ((>= start line) 0)
            (t (goto-char start) (max 0 (- (+ (current-column) gemivaloon-indent) hang)))))))

(defun gemivaloon-indent-line ()
  "Indent the line, with infix operators to the left of its text."
  (interactive)
  (let ((column (gemivaloon-indentation)) (behind (> (current-column) (current-indentation))))
    (when column (if behind (save-excursion (indent-line-to column)) (indent-line-to column)))))

(defun gemivaloon-indent-declaration ()
  "Indent each line of the declaration at point."
  (interactive)
  (let* ((start (gemivaloon-declaration-start)) (end (gemivaloon-declaration-end start)))
    (indent-region start (or end (point-max)))))

;; The prover: a process that is asked one command after the other.

(defun gemivaloon-process ()
  "The prover, started where none runs."
  (let ((buffer (get-buffer-create gemivaloon-buffer-name)) (folder default-directory))
    (unless (comint-check-proc buffer)
      (with-current-buffer buffer
        (setq default-directory folder)
        (let ((inhibit-read-only t)) (erase-buffer))
        (let ((process-connection-type nil)) ; a terminal would cut long lines
          (make-comint-in-buffer "gemivaloon" buffer gemivaloon-program))
        (setq-local comint-output-filter-functions nil gemivaloon-loop nil)
        (set-process-query-on-exit-flag (get-buffer-process buffer) nil)
        (set-process-sentinel (get-buffer-process buffer) #'ignore)
        (set-process-coding-system (get-buffer-process buffer) 'utf-8-unix 'utf-8-unix)
        (gemivaloon-wait (point-min))))
    (get-buffer-process buffer)))

(defun gemivaloon-last-line ()
  "What the prover wrote last, at the end of its buffer."
  (goto-char (point-max))
  (skip-chars-backward " \t\n")
  (buffer-substring-no-properties (line-beginning-position) (point)))

(defun gemivaloon-wait (from)
  "Wait for the end of the answer that begins at FROM in the prover's buffer, and return its lines; the last one tells how it ended.
Where it isn't waited for to the end, the prover is ended, so that no answer is taken for that of a later command."
  (let ((process (get-buffer-process (current-buffer))) (begin (float-time)) (told (float-time)) (seen from) done)
    (unwind-protect
        (while (not done)
          (goto-char seen)
          (beginning-of-line)
          (setq seen (point))
          (cond ((re-search-forward "^%% \\(?:OK\\|ABORT\\) %%\n" nil t)
                 (setq gemivaloon-answer-end (point)
                       done (split-string (buffer-substring-no-properties from (point)) "\n" t)))
                ((not (process-live-p process))
                 (unless (accept-process-output process 0)
                   (error "The prover has ended with the code %d: %s" (process-exit-status process) (gemivaloon-last-line))))
                ((> (- (float-time) begin) gemivaloon-seconds) (error "The prover didn't answer within %s seconds" gemivaloon-seconds))
                (t (when (> (- (float-time) told) 1)
                     (let (message-log-max) (message "The prover is at work, C-g ends it: %s" (gemivaloon-last-line)))
                     (setq told (float-time)))
                   (setq seen (point-max))
                   (accept-process-output process 0.2))))
      (unless done (delete-process process)))
    (goto-char (point-max))
    done))

(defun gemivaloon-end-loop (process)
  "End the loop of queries of PROCESS, where one was begun.
Of three dots one ends a query that is half typed, one drops a search, and one ends the loop; where they do less, they are no commands."
  (when gemivaloon-loop
    (setq gemivaloon-loop nil)
    (let ((from (point-max)))
      (process-send-string process ".\n.\n.\nversion\n")
      (while (not (string-prefix-p "Twelf " (car (last (gemivaloon-wait from) 2))))
        (setq from gemivaloon-answer-end)))))

(defun gemivaloon-ask (command)
  "Send COMMAND to the prover, and return the lines of its answer, the last one of which is that of the end."
  (let ((process (gemivaloon-process)))
    (with-current-buffer (process-buffer process)
      (gemivaloon-end-loop process)
      (goto-char (point-max))
      (unless (bolp) (insert-before-markers "\n"))
      (let ((from (point-max)))
        (process-send-string process (concat command "\n"))
        (set-marker (process-mark process) (point-max))
        (gemivaloon-wait from)))))

(defun gemivaloon-refused-p (answer) "Whether ANSWER ends in a refusal." (equal (car (last answer)) "%% ABORT %%"))

(defun gemivaloon-sentence (refusal)
  "The line of a REFUSAL, with the sentence of the page of refusals about it."
  (let ((page (expand-file-name "docs/REFUSALS.md" gemivaloon-folder)))
    (or (when (and (string-match "\\`\\(E[0-9]+ [A-Za-z]+\\)\\(.*\\)" refusal) (file-readable-p page))
          (let ((head (match-string 1 refusal)) (shown (match-string 2 refusal)))
            (with-temp-buffer
              (insert-file-contents page)
              (when (re-search-forward (format "^## %s: \\(.*\\)$" (regexp-quote head)) nil t)
                (concat head ": " (match-string 1) (unless (equal shown "") (concat ":" shown)))))))
        refusal)))

(defun gemivaloon-note (answer origin start)
  "Keep the refusals of ANSWER that are of ORIGIN, whose text begins at START in this buffer; columns count bytes."
  (setq gemivaloon-refusals nil gemivaloon-current nil)
  (when (gemivaloon-refused-p answer)
    (dolist (line answer)
      (when (string-match (concat "\\`" (regexp-quote origin) ":\\([0-9]+\\):\\([0-9]+\\) \\(E[0-9]+ .*\\)\\'") line)
        (let ((row (string-to-number (match-string 1 line))) (column (string-to-number (match-string 2 line))))
          (push (list (gemivaloon-place start row column) (gemivaloon-sentence (match-string 3 line))) gemivaloon-refusals)))))
  (setq gemivaloon-refusals (nreverse gemivaloon-refusals) gemivaloon-next gemivaloon-refusals)
  (cond (gemivaloon-refusals (message "%s" (cadar gemivaloon-refusals)))
        ((gemivaloon-refused-p answer) (message "%s" (or (seq-find (lambda (it) (string-match-p "\\`[EC][0-9]+ " it)) answer) "Refused")))
        (t (message "Accepted"))))

(defun gemivaloon-place (start row column)
  "A marker at the byte COLUMN of line ROW of the text that begins at START."
  (save-excursion
    (save-restriction
      (widen)
      (goto-char start)
      (let ((base (if (= row 1) (position-bytes start) (forward-line (1- row)) (position-bytes (point)))))
        (copy-marker (or (byte-to-position (+ base (1- column))) (point-max)))))))

(defun gemivaloon-load (file)
  "Let the prover load FILE, note what is refused of it, and return whether nothing was.
Its commands are words, so a name with white space gets a link without any, while it is loaded."
  (unless (file-readable-p file) (user-error "%s can't be read" file))
  (let* ((folder (when (string-match-p "[ \t\n\v\f\r]" file) (make-temp-file "gemivaloon-" t)))
         (word (if folder (expand-file-name "with-spaces.elf" folder) file)))
    (unwind-protect
        (let ((answer (progn (when folder (make-symbolic-link file word)) (gemivaloon-ask (concat "loadFile " word)))))
          (with-current-buffer (find-file-noselect file) (gemivaloon-note answer word (point-min)))
          (not (gemivaloon-refused-p answer)))
      (when folder (delete-directory folder t)))))

(defun gemivaloon-save-check-file ()
  "Save the file, and check it from nothing."
  (interactive)
  (unless (buffer-file-name) (user-error "This buffer belongs to no file; C-x C-w gives it one"))
  (when (buffer-modified-p) (save-buffer))
  (gemivaloon-ask "reset")
  (gemivaloon-load (expand-file-name (buffer-file-name))))

(defun gemivaloon-check-declaration ()
  "Let the prover make the declaration at point, over what it has made before."
  (interactive)
  (let* ((start (gemivaloon-declaration-start)) (end (gemivaloon-declaration-end start)))
    (unless end (user-error "No dot ends the declaration that begins at line %d" (line-number-at-pos start)))
    (gemivaloon-note (gemivaloon-ask (concat "readDecl\n" (buffer-substring-no-properties start end))) "stdin" start)))

(defun gemivaloon-unbuilt-p (answer) "Whether ANSWER says that there is no such command." (string-prefix-p "C1 " (or (car answer) "")))

(defun gemivaloon-files-of (configuration)
  "The files that CONFIGURATION lists, in order."
  (with-temp-buffer
    (insert-file-contents configuration)
    (while (re-search-forward "%.*$" nil t) (replace-match ""))
    (mapcar (lambda (it) (expand-file-name it (file-name-directory configuration))) (split-string (buffer-string)))))

(defun gemivaloon-save-check-config (configuration)
  "Save the buffers, and check the files that CONFIGURATION lists from nothing, up to the first that is refused.
It is the one of this folder or the nearest above; where there is none, or with a prefix argument, it is asked for."
  (interactive
   (let ((above (locate-dominating-file default-directory gemivaloon-configuration)))
     (list (if (and above (not current-prefix-arg)) (expand-file-name gemivaloon-configuration above)
             (read-file-name "Configuration: " nil nil t gemivaloon-configuration)))))
  (save-some-buffers)
  (gemivaloon-ask "reset")
  (let ((files (gemivaloon-files-of (expand-file-name configuration))))
    (while (and files (gemivaloon-load (pop files))))))

(defun gemivaloon-top ()
  "Begin the prover's loop of queries in its buffer, where the prover has one; a dot alone ends it, and so does the next command."
  (interactive)
  (let* ((answer (gemivaloon-ask "top\n.")) (process (gemivaloon-process)) (buffer (process-buffer process)))
    (with-current-buffer buffer
      (if (string-prefix-p "C1 " (car answer))
          (progn (gemivaloon-wait gemivaloon-answer-end)
                 (message "This prover can't answer queries yet: %s" (car answer)))
        (setq gemivaloon-loop t)
        (pop-to-buffer buffer)
        (comint-send-string process "top\n")))))

(defun gemivaloon-why ()
  "Save the file, and ask twelf-why for the reason of the refusal that was visited last, or of the first, in a buffer of its own."
  (interactive)
  (let ((at (or gemivaloon-current (car gemivaloon-next) (user-error "Nothing was refused")))
        (process-environment (cons (concat "TWELF=" gemivaloon-program) process-environment)))
    (with-current-buffer (marker-buffer (car at))
      (when (buffer-modified-p) (save-buffer))
      (compilation-start (format "%s %s %d" (shell-quote-argument (expand-file-name "twelf-why" gemivaloon-folder))
                                 (shell-quote-argument (buffer-file-name)) (line-number-at-pos (car at) t))
                         nil (lambda (_) "*gemivaloon why*")))))

(defun gemivaloon-type-const ()
  "Show the declaration of the name at point."
  (interactive)
  (let* ((characters "^][:.(){}%\" \t\n")
         (start (save-excursion (skip-chars-backward characters) (point)))
         (end (save-excursion (skip-chars-forward characters) (point))))
    (when (= start end) (user-error "No name stands here"))
    (message "%s" (string-join (butlast (gemivaloon-ask (concat "decl " (buffer-substring-no-properties start end)))) "\n"))))

(defun gemivaloon-server-send-command (command)
  "Send a COMMAND of its own protocol to the prover, and show the answer."
  (interactive "sCommand: ")
  (message "%s" (string-join (gemivaloon-ask command) "\n")))

(defun gemivaloon-set (parameter value)
  "Set a PARAMETER of the prover to VALUE."
  (interactive (list (completing-read "Parameter: " '("chatter" "Print.implicit" "steps")) (read-string "Value: ")))
  (message "%s" (car (gemivaloon-ask (format "set %s %s" parameter value)))))

(defun gemivaloon-get (parameter)
  "Show the value of a PARAMETER of the prover."
  (interactive (list (completing-read "Parameter: " '("chatter" "Print.implicit" "steps"))))
  (message "%s" (car (gemivaloon-ask (concat "get " parameter)))))

(defun gemivaloon-server-display ()
  "Show the prover's buffer."
  (interactive)
  (display-buffer (or (get-buffer gemivaloon-buffer-name) (process-buffer (gemivaloon-process)))))

(defun gemivaloon-server-quit ()
  "End the prover, which forgets all; it is started again when it is asked for something."
  (interactive)
  (let ((process (get-buffer-process gemivaloon-buffer-name))) (when process (delete-process process))))

(defun gemivaloon-goto-refusal ()
  "Go to the refusal that was visited last, or to the first."
  (interactive)
  (setq gemivaloon-current (or gemivaloon-current (pop gemivaloon-next) (user-error "Nothing was refused")))
  (pop-to-buffer-same-window (marker-buffer (car gemivaloon-current)))
  (goto-char (car gemivaloon-current))
  (message "%s" (cadr gemivaloon-current)))

(defun gemivaloon-next-refusal ()
  "Go to the next refusal."
  (interactive)
  (setq gemivaloon-current (or (pop gemivaloon-next) (user-error "No more refusals")))
  (gemivaloon-goto-refusal))

(defvar gemivaloon-mode-map
  (let ((map (make-sparse-keymap)))
    (dolist (it '(("C-c C-s" . gemivaloon-save-check-file) ("C-c C-d" . gemivaloon-check-declaration)
                  ("C-c C-c" . gemivaloon-save-check-config) ("C-c `" . gemivaloon-next-refusal) ("C-c =" . gemivaloon-goto-refusal)
                  ("C-c c" . gemivaloon-type-const) ("C-c C-u" . gemivaloon-server-display) ("C-c <" . gemivaloon-set)
                  ("C-c >" . gemivaloon-get) ("C-M-q" . gemivaloon-indent-declaration) ("C-c C-i" . gemivaloon-server-quit)
                  ("C-c C-w" . gemivaloon-why)))
      (define-key map (kbd (car it)) (cdr it)))
    map))

(easy-menu-define gemivaloon-menu gemivaloon-mode-map "What the prover can be asked for."
  '("Gemivaloon"
    ["Check the file" gemivaloon-save-check-file] ["Check the declaration" gemivaloon-check-declaration]
    ["Check the configuration" gemivaloon-save-check-config] ["Show the declaration of a name" gemivaloon-type-const] "--"
    ["Next refusal" gemivaloon-next-refusal] ["The refusal again" gemivaloon-goto-refusal] ["Why is it refused?" gemivaloon-why] "--"
    ["Loop of queries" gemivaloon-top] ["A command" gemivaloon-server-send-command] ["Set a parameter" gemivaloon-set]
    ["Get a parameter" gemivaloon-get] "--"
    ["Indent the declaration" gemivaloon-indent-declaration] ["Show the prover's buffer" gemivaloon-server-display]
    ["End the prover" gemivaloon-server-quit]))

;;;###autoload
(define-derived-mode gemivaloon-mode prog-mode "Gemivaloon"
  "Edit Twelf signatures, and check them by the prover."
  (setq-local comment-start "% " comment-end "" comment-start-skip "%+[ \t]*" indent-tabs-mode nil)
  (setq-local syntax-propertize-function #'gemivaloon-syntax-propertize parse-sexp-lookup-properties t)
  (setq-local indent-line-function #'gemivaloon-indent-line)
  (setq-local font-lock-defaults '(gemivaloon-font-lock)))

;;;###autoload
(add-to-list 'auto-mode-alist '("\\.elf\\'" . gemivaloon-mode))

(provide 'gemivaloon)
;;; gemivaloon.el ends here
