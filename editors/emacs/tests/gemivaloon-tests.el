;;; gemivaloon-tests.el --- Tests of the mode, by editors/emacs/tests/run -*- lexical-binding: t -*-

(require 'ert)
(require 'gemivaloon)

(defmacro gemivaloon-with (name text &rest body)
  "Do BODY in a buffer that visits a file NAME with this TEXT, in a folder of its own."
  (declare (indent 2))
  `(let* ((folder (make-temp-file "gemivaloon tests " t)) (file (expand-file-name ,name folder)) (make-backup-files nil))
     (unwind-protect
         (progn
           (with-temp-file file (insert ,text))
           (with-current-buffer (find-file-noselect file)
             (gemivaloon-mode)
             (goto-char (point-min))
             (unwind-protect (progn ,@body) (set-buffer-modified-p nil) (kill-buffer))))
       (gemivaloon-server-quit)
       (delete-directory folder t))))

(defun gemivaloon-face-of (text)
  "The face of the first place at which TEXT stands."
  (font-lock-ensure)
  (goto-char (point-min))
  (search-forward text)
  (get-text-property (match-beginning 0) 'face))

(ert-deftest gemivaloon-highlights ()
  (gemivaloon-with "a.elf" "% a comment\nnat : type.\n%{ one %{ in }% one }%\n%infix left 5 plus.\nc : {x:nat} nat -> F x.\n"
    (should (memq (gemivaloon-face-of "a comment") '(font-lock-comment-face)))
    (should (eq (gemivaloon-face-of "in }%") 'font-lock-comment-face))
    (should (eq (gemivaloon-face-of "nat :") 'font-lock-function-name-face))
    (should (eq (gemivaloon-face-of "type") 'font-lock-type-face))
    (should (eq (gemivaloon-face-of "%infix") 'font-lock-keyword-face))
    (should (eq (gemivaloon-face-of "x:") 'font-lock-variable-name-face))
    (should (eq (gemivaloon-face-of "->") 'font-lock-builtin-face))
    (should (eq (gemivaloon-face-of "F x") 'font-lock-variable-name-face))))

(ert-deftest gemivaloon-indents ()
  (gemivaloon-with "a.elf" "nat : type.\n  % a comment. With dots.\n  c : nat\n-> (nat\n-> nat\n)\n<- nat.\n d : {x:nat}\nnat.\n"
    (indent-region (point-min) (point-max))
    (should (equal (buffer-string)
                   "nat : type.\n% a comment. With dots.\nc : nat\n-> (nat\n -> nat\n   )\n<- nat.\nd : {x:nat}\n   nat.\n"))))

(ert-deftest gemivaloon-finds-declarations ()
  (gemivaloon-with "a.elf" "nat : type.\n\n% words. and dots.\nz : nat. s : nat\n  -> nat.\n"
    (search-forward "-> ")
    (let ((start (gemivaloon-declaration-start)))
      (should (equal (buffer-substring start (gemivaloon-declaration-end start)) "s : nat\n  -> nat.")))
    (goto-char (point-min))
    (search-forward "words")
    (let ((start (gemivaloon-declaration-start)))
      (should (equal (buffer-substring start (gemivaloon-declaration-end start)) "z : nat.")))
    (goto-char (point-min))
    (end-of-line)
    (let ((start (gemivaloon-declaration-start)))
      (should (equal (buffer-substring start (gemivaloon-declaration-end start)) "nat : type.")))))

(ert-deftest gemivaloon-checks-a-file-with-spaces ()
  (gemivaloon-with "a b.elf" "nat : type.\n% é\n\té : natt.\n"
    (gemivaloon-save-check-file)
    (should (= (length gemivaloon-refusals) 1))
    (should (string-match-p "\\`E4 Unknown: .*: natt\\'" (cadar gemivaloon-refusals)))
    (gemivaloon-next-refusal)
    (should (looking-at "natt"))
    (should-error (gemivaloon-next-refusal) :type 'user-error)
    (goto-char (point-min))
    (gemivaloon-goto-refusal)
    (should (looking-at "natt"))
    (goto-char (point-max))
    (while (search-backward "natt" nil t) (replace-match "nat"))
    (gemivaloon-save-check-file)
    (should-not gemivaloon-refusals)))

(ert-deftest gemivaloon-checks-a-declaration ()
  (gemivaloon-with "a.elf" "nat : type.\nz : nat. y : nat\n   -> ntt.\n% no dot here\nx : nat\n"
    (gemivaloon-check-declaration)
    (should-not gemivaloon-refusals)
    (search-forward "z :")
    (gemivaloon-check-declaration)
    (should-not gemivaloon-refusals)
    (search-forward "->")
    (gemivaloon-check-declaration)
    (gemivaloon-next-refusal)
    (should (looking-at "ntt"))
    (search-forward "x :")
    (should-error (gemivaloon-check-declaration) :type 'user-error)
    (goto-char (point-min))
    (should (string-prefix-p "nat : type." (gemivaloon-type-const)))
    (search-forward "ntt")
    (should (string-prefix-p "C7 UnknownName ntt" (gemivaloon-type-const)))))

(ert-deftest gemivaloon-checks-a-configuration ()
  (gemivaloon-with "b.elf" "z : nat.\n\ns : nat -> ntt.\n"
    (let ((a (expand-file-name "a a.elf" folder)))
      (with-temp-file a (insert "nat : type.\n"))
      (make-symbolic-link a (expand-file-name "a.elf" folder))
      (with-temp-file (expand-file-name "sources.cfg" folder) (insert "a.elf % the numbers\n% z.elf\nb.elf none.elf\n")))
    (call-interactively #'gemivaloon-save-check-config)
    (gemivaloon-next-refusal)
    (should (looking-at "ntt"))
    (replace-match "nat")
    (save-buffer)
    (should (string-match-p "none.elf can.t be read" (cadr (should-error (call-interactively #'gemivaloon-save-check-config)))))
    (should-not gemivaloon-refusals)
    (should (string-prefix-p "s : nat -> nat." (gemivaloon-server-send-command "decl s")))))

(ert-deftest gemivaloon-tells-each-refusal ()
  "In a file and as a declaration each refusal is at its place, by the word and the column that are wanted."
  (let ((cases (getenv "GEMIVALOON_CASES")) wanted)
    (with-temp-buffer
      (insert-file-contents (expand-file-name "wanted" cases))
      (while (re-search-forward "^\\(.*\\):\\([0-9]+\\):\\([0-9]+\\) \\(.*\\)$" nil t)
        (push (mapcar #'match-string '(1 2 3 4)) wanted)))
    (should (> (length wanted) 10))
    (unwind-protect
        (pcase-dolist (`(,name ,row ,column ,words) wanted)
          (with-current-buffer (find-file-noselect (expand-file-name name cases))
            (gemivaloon-mode)
            (dolist (check (list #'gemivaloon-save-check-file #'gemivaloon-check-declaration))
              (funcall check)
              (should (string-prefix-p words (cadar gemivaloon-refusals)))
              (gemivaloon-next-refusal)
              (should (equal (list words (line-number-at-pos) (1+ (- (position-bytes (point)) (position-bytes (line-beginning-position)))))
                             (list words (string-to-number row) (string-to-number column)))))
            (kill-buffer)))
      (gemivaloon-server-quit))))

(ert-deftest gemivaloon-shows-the-sentence-of-a-refusal ()
  (should (equal (gemivaloon-sentence "E5 Mismatch") "E5 Mismatch: the types don't fit"))
  (should (equal (gemivaloon-sentence "E4 Unknown natt") "E4 Unknown: a name that is neither bound nor declared: natt"))
  (should (equal (gemivaloon-sentence "E99 Other") "E99 Other")))

(ert-deftest gemivaloon-asks-why ()
  (gemivaloon-with "a b.elf" "nat : type.\nz : natt.\n"
    (should-error (gemivaloon-why) :type 'user-error)
    (gemivaloon-save-check-file)
    (let ((buffer (gemivaloon-why)) (compilation-read-command nil))
      (with-current-buffer buffer
        (let ((process (get-buffer-process buffer)))
          (while (process-live-p process) (accept-process-output process 1)))
        (goto-char (point-min))
        (should (search-forward "a b.elf:2:5 E4 Unknown" nil t))
        (should (search-forward "`nat`" nil t)))
      (kill-buffer buffer))))

(ert-deftest gemivaloon-says-what-is-not-built ()
  (let ((gemivaloon-program (expand-file-name "editors/tests/stand_in.py" gemivaloon-folder)))
    (gemivaloon-with "a.elf" "nat : type.\n"
      (should (string-match-p "queries yet" (gemivaloon-top)))))
  (gemivaloon-with "a.elf" "nat : type.\n"
    (gemivaloon-set "chatter" "2")
    (should (equal (gemivaloon-get "chatter") "2"))
    (should (string-prefix-p "C6 BadParameter" (gemivaloon-set "chatter" "7")))))

(ert-deftest gemivaloon-begins-and-ends-the-loop-of-queries ()
  (let ((process-environment (cons "STAND_IN_TOP=1" process-environment))
        (gemivaloon-program (expand-file-name "editors/tests/stand_in.py" gemivaloon-folder)))
    (gemivaloon-with "a.elf" "nat : type.\nz : nat.\n"
      (gemivaloon-save-check-file)
      (dolist (typed '("" "nat.\n" "nat.\ny\n" "nat.\nn\n" "na" "nat\n" ".\n"))
        (save-window-excursion (gemivaloon-top))
        (comint-send-string gemivaloon-buffer-name typed)
        (while (accept-process-output (get-buffer-process gemivaloon-buffer-name) 0.3))
        (should (equal (gemivaloon-type-const) "nat : type."))
        (should-not gemivaloon-loop)))))

(ert-deftest gemivaloon-ends-what-is-broken-off ()
  "Where an answer isn't waited for, the next command has its own."
  (let ((slow (make-temp-file "gemivaloon slow ")))
    (with-temp-file slow (insert "#!/bin/sh\nprintf 'Twelf\\n%%%% OK %%%%\\n'\nwhile read it; do sleep 1; echo \"$it\"; echo '%% OK %%'; done\n"))
    (set-file-modes slow #o755)
    (unwind-protect
        (gemivaloon-with "a.elf" "nat : type.\n"
          (let ((gemivaloon-program slow))
            (should (eq 'late (with-timeout (0.5 'late) (gemivaloon-server-send-command "one"))))
            (should (string-prefix-p "two" (gemivaloon-server-send-command "two")))
            (let ((gemivaloon-seconds 0.2)) (should-error (gemivaloon-server-send-command "three")))
            (should (string-prefix-p "four" (gemivaloon-server-send-command "four")))))
      (delete-file slow))))

(ert-deftest gemivaloon-says-that-the-prover-has-ended ()
  (gemivaloon-with "a.elf" "nat : type.\n"
    (let ((gemivaloon-program (expand-file-name "ends" folder)))
      (with-temp-file gemivaloon-program (insert "#!/bin/sh\necho it is not built >&2\nexit 69\n"))
      (set-file-modes gemivaloon-program #o755)
      (should (string-match-p "code 69: it is not built" (cadr (should-error (gemivaloon-save-check-file)))))
      (gemivaloon-server-display)
      (with-current-buffer gemivaloon-buffer-name (should (string-match-p "it is not built" (buffer-string))))
      (set-visited-file-name nil)
      (should-error (gemivaloon-save-check-file) :type 'user-error))))

(ert-deftest gemivaloon-checks-many-declarations ()
  (gemivaloon-with "a.elf" (concat "nat : type.\n" (mapconcat (lambda (it) (format "c%d : nat.\n" it)) (number-sequence 1 9999) ""))
    (gemivaloon-save-check-file)
    (should-not gemivaloon-refusals)))

;;; gemivaloon-tests.el ends here
