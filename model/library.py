"""The texts that every module may include."""
from conditions import CODES

TREE_HASH = b'''(
  (defun sha256tree (T)
    (if (l T) (sha256 2 (sha256tree (f T)) (sha256tree (r T))) (sha256 1 T)))
  (defun-inline quoted-hash (H) (sha256 2 (sha256 1 1) H))
  (defun-inline form-hash (OP X Y)
    (sha256 2 (sha256 1 OP) (sha256 2 X (sha256 2 Y (sha256 1 ())))))
  (defun-inline curried-hash2 (P A B)
    (form-hash 2 (quoted-hash P)
      (form-hash 4 (quoted-hash A)
        (form-hash 4 (quoted-hash B) (sha256 1 1)))))
)
'''
CONDITION_CODES = '(\n%s)\n' % ''.join('  (defconstant %s %d)\n' % it for it in CODES)
BUILT_IN = {b'condition_codes.clib': CONDITION_CODES.encode(), b'tree_hash.clib': TREE_HASH}
