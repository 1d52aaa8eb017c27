; Gabriel's fft: the Fourier transform of n numbers, in place, where n is a power of 2. Cells are counted from 1, as there.

(defun swap (v i j)
  (let ((a (vector-ref v i)))
    (vector-set v i (vector-ref v j))
    (vector-set v j a)))

; Puts the numbers into the order of their places with the bits read backwards.
(defun reverse-bits (re im n)
  (let ((i 1) (j 1) (k 0))
    (while (< i n)
      (if (< i j) (progn (swap re i j) (swap im i j)))
      (setq k (quotient n 2))
      (while (< k j) (setq j (- j k)) (setq k (quotient k 2)))
      (setq j (+ j k))
      (setq i (+ i 1)))))

; Makes cells i and i + half their sum and their difference, the second one turned by u before.
(defun butterfly (re im i half ur ui)
  (let ((j (+ i half)))
    (let ((r (vector-ref re j)) (m (vector-ref im j)))
      (let ((tr (- (* r ur) (* m ui))) (ti (+ (* r ui) (* m ur))))
        (vector-set re j (- (vector-ref re i) tr))
        (vector-set im j (- (vector-ref im i) ti))
        (vector-set re i (+ (vector-ref re i) tr))
        (vector-set im i (+ (vector-ref im i) ti))))))

; One round, of pairs that are so far apart.
(defun round (re im n half)
  (let ((wr (cos (/ 3.141592653589793 half))) (wi (sin (/ 3.141592653589793 half))) (ur 1.0) (ui 0.0) (j 1))
    (while (< j (+ half 1))
      (let ((i j))
        (while (< i (+ n 1))
          (butterfly re im i half ur ui)
          (setq i (+ i (+ half half)))))
      (let ((r (- (* ur wr) (* ui wi))))
        (setq ui (+ (* ur wi) (* ui wr)))
        (setq ur r))
      (setq j (+ j 1)))))

(defun fft (re im n)
  (reverse-bits re im n)
  (let ((half 1))
    (while (< half n)
      (round re im n half)
      (setq half (+ half half)))))

; A signal: number j is j * j modulo 17, and the imaginary part 3 * j modulo 5.
(defun fill (n)
  (let ((j 0))
    (while (< j n)
      (vector-set re (+ j 1) (+ 0.0 (remainder (* j j) 17)))
      (vector-set im (+ j 1) (+ 0.0 (remainder (* 3 j) 5)))
      (setq j (+ j 1)))))

(defun transform (n)
  (setq re (make-vector (+ n 1)))
  (setq im (make-vector (+ n 1)))
  (fill n)
  (fft re im n)
  n)
