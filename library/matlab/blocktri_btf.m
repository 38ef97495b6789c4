function [p, q, r] = blocktri_btf (A)
%BLOCKTRI_BTF Block triangular form of a square matrix, as SuiteSparse's BTF gives it.
%   [P,Q,R] = BLOCKTRI_BTF(A) gives row and column permutations in which C = A(P,ABS(Q)) is
%   block upper triangular. Block k is C(R(k):R(k+1)-1, R(k):R(k+1)-1).
%
%   If A has full structural rank, Q has no negative entry, and C has a zero-free diagonal.
%   Else Q(k) < 0 marks the columns that the maximum matching does not have: FIND(Q < 0) are the
%   places of the diagonal of C that are zero. They are paired with the unmatched rows as if
%   there were an entry, so C has blocks all the same.
%
%   A must be square. It may be sparse or full, real, complex or logical.
%
%   Example:
%      A = sparse([1 1 0; 0 0 0; 0 1 1]);
%      [p,q,r] = blocktri_btf(A);
%      C = A(p,abs(q));
%      nnz(diag(C))                         % 2, the structural rank
%
%   Errors: blocktri:notSquare, blocktri:notNumeric, blocktri:outOfMemory, and
%   blocktri:oldLibrary if the library does not order singular matrices yet.
%
%   See also BLOCKTRI_DMPERM, BLOCKTRI_SPRANK, BLOCKTRI_HEAVIEST.

  if nargin ~= 1
    error('blocktri:usage', 'Usage: [P,Q,R] = blocktri_btf(A)');
  end
  pattern = blocktri_pattern(A);
  if size(A, 1) ~= size(A, 2)
    error('blocktri:notSquare', 'A must be square.');
  end
  [p, q, r] = blocktri_mex('btf', pattern);
end
