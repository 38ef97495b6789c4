function [p, q, r, s, cc, rr] = blocktri_dmperm (A)
%BLOCKTRI_DMPERM Dulmage-Mendelsohn decomposition.
%   P = BLOCKTRI_DMPERM(A) is a maximum matching: P(j) = i if column j is paired with row i,
%   and 0 if column j is not paired. If A is square and has full structural rank, P is a row
%   permutation, and A(P,:) has a zero-free diagonal.
%
%   [P,Q,R,S] = BLOCKTRI_DMPERM(A) gives row and column permutations P and Q in which A(P,Q)
%   is block upper triangular. Block k is A(P(R(k):R(k+1)-1), Q(S(k):S(k+1)-1)). If A is square
%   and has full structural rank, R and S are equal and A(P,Q) has a zero-free diagonal.
%
%   [P,Q,R,S,CC,RR] = BLOCKTRI_DMPERM(A) also tells where the coarse parts of C = A(P,Q) begin:
%      C(RR(1):RR(2)-1, CC(1):CC(2)-1)   the unmatched columns of the horizontal part
%      C(RR(1):RR(2)-1, CC(2):CC(3)-1)   the rest of the horizontal part
%      C(RR(2):RR(3)-1, CC(3):CC(4)-1)   the square part
%      C(RR(3):RR(4)-1, CC(4):CC(5)-1)   the vertical part
%      C(RR(4):RR(5)-1, CC(4):CC(5)-1)   the unmatched rows of the vertical part
%   The rank is RR(4)-1.
%
%   The parts and blocks are those of DMPERM; blocks may come in another order where more than
%   one order is upper triangular, and another maximum matching may stand on the diagonal. If
%   A has a full diagonal, row j is paired with column j.
%
%   A may be sparse or full, real, complex or logical, and of any size.
%
%   Example:
%      A = sparse([1 0 1 1; 0 1 0 0; 1 0 0 1; 0 1 1 0]);
%      [p,q,r,s] = blocktri_dmperm(A);
%      spy(A(p,q))
%
%   Errors: blocktri:notNumeric, blocktri:outOfMemory.
%
%   See also BLOCKTRI_SPRANK, BLOCKTRI_BTF, BLOCKTRI_HEAVIEST, DMPERM.

  if nargin ~= 1
    error('blocktri:usage', 'Usage: [P,Q,R,S,CC,RR] = blocktri_dmperm(A)');
  end
  pattern = blocktri_pattern(A);
  if nargout < 2
    p = blocktri_mex('matching', pattern);
  else
    [p, q, r, s, cc, rr] = blocktri_mex('dmperm', pattern);
  end
end
