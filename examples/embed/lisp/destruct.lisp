; Gabriel's destruct: ten lists, which are cut in halves, joined anew and written over.

; Writes i into the first n items of l, and returns what follows them.
(defun write-over (l n i)
  (while (< 0 n) (rplaca l i) (setq l (cdr l)) (setq n (- n 1)))
  l)

; Cuts the first half off the first list of l, writes i into it except into its last item, and returns the other half.
(defun cut (l i)
  (let ((n (quotient (length (car l)) 2)))
    (if (= n 0)
        (progn (rplaca l nil) nil)
        (let ((last (write-over (car l) (- n 1) i)))
          (let ((rest (cdr last)))
            (rplacd last nil)
            rest)))))

; Adds m items to each list.
(defun grow (l m)
  (while l
    (if (null? (car l)) (rplaca l (list1 nil)))
    (append-to-tail (car l) (nils m))
    (setq l (cdr l))))

; Writes i into the first half of each list except the first, and puts the second half of the list before it behind that.
(defun shift (l i)
  (while (cdr l)
    (let ((middle (write-over (cadr l) (quotient (length (cadr l)) 2) i)))
      (rplacd middle (cut l i)))
    (setq l (cdr l))))

(defun destruct (n m)
  (let ((l (nils 10)))
    (while (< 0 n)
      (if (null? (car l)) (grow l m) (shift l n))
      (setq n (- n 1)))
    l))
