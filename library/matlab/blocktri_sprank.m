function rank = blocktri_sprank (A)
%BLOCKTRI_SPRANK Structural rank.
%   R = BLOCKTRI_SPRANK(A) is the structural rank of the matrix A: how many rows can be
%   paired with columns by nonzero entries, no row and no column twice. It is the greatest
%   rank of all matrices with the nonzero pattern of A, so R >= RANK(FULL(A)).
%
%   A may be sparse or full, real, complex or logical, and of any size.
%
%   Example:
%      A = sparse([1 1 1; 1 0 0; 1 0 0]);
%      blocktri_sprank(A)                   % 2
%
%   Errors: blocktri:notNumeric, blocktri:outOfMemory.
%
%   See also BLOCKTRI_DMPERM, BLOCKTRI_BTF, BLOCKTRI_HEAVIEST, SPRANK.

  if nargin ~= 1
    error('blocktri:usage', 'Usage: R = blocktri_sprank(A)');
  end
  rank = blocktri_mex('sprank', blocktri_pattern(A));
end
