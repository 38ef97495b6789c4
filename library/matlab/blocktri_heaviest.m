function [p, row_prices, column_prices, total] = blocktri_heaviest (A)
%BLOCKTRI_HEAVIEST Diagonal with the greatest sum of magnitudes, of an integer matrix.
%   P = BLOCKTRI_HEAVIEST(A) pairs each column j with row P(j) by a nonzero entry, so that
%   SUM(ABS(DIAG(A(P,:)))) is as great as can be: what MC64 calls a maximum sum matching.
%
%   [P,ROW_PRICES,COLUMN_PRICES,TOTAL] = BLOCKTRI_HEAVIEST(A) gives that sum as a uint64, and
%   prices that prove it, an int64 column and an int64 row. Each nonzero entry has
%      ABS(A(i,j)) <= ROW_PRICES(i) + COLUMN_PRICES(j),
%   and each entry of the diagonal of A(P,:) has equality. So no diagonal has a greater sum.
%
%   A must be square, with real values that are integers between -(2^63-1) and 2^63-1. It may be
%   sparse, or full of any numeric or logical type; int64 values are taken exactly.
%
%   Example:
%      A = [2 9; 3 9];
%      [p,u,v,total] = blocktri_heaviest(A);
%      p, total                             % p = 2 1, total = 12
%
%   Errors: blocktri:notSquare, blocktri:singular if no diagonal is free of zeros,
%   blocktri:notInteger if a value is complex, is not finite, is no integer or is too large,
%   blocktri:sumLimit for -2^63, blocktri:priceLimit if no prices of 64 bits prove the diagonal
%   (P alone has an answer), blocktri:totalLimit if TOTAL is asked for and exceeds 2^64-1,
%   blocktri:notNumeric, blocktri:outOfMemory.
%
%   See also BLOCKTRI_DMPERM, BLOCKTRI_SPRANK, BLOCKTRI_BTF.

  if nargin ~= 1
    error('blocktri:usage', 'Usage: [P,ROW_PRICES,COLUMN_PRICES,TOTAL] = blocktri_heaviest(A)');
  end
  pattern = blocktri_pattern(A) ~= 0;
  if size(A, 1) ~= size(A, 2)
    error('blocktri:notSquare', 'A must be square.');
  end
  values = integers(A);
  if nargout < 2
    p = blocktri_mex('heaviest', pattern, values);
    return
  end
  [p, row_prices, column_prices, total, high] = blocktri_mex('heaviest', pattern, values);
  if nargout > 3 && high ~= 0
    error('blocktri:totalLimit', 'The sum of the diagonal exceeds 2^64-1.');
  end
end

% The nonzeros of a matrix, column by column, as int64.
function values = integers (A)
  if ~isreal(A)
    error('blocktri:notInteger', 'The values of A must be integers: A is complex.');
  end
  if issparse(A)
    values = nonzeros(A);
  else
    values = A(A ~= 0);
  end
  if isfloat(values)
    fits = isfinite(values) & values == fix(values) & abs(values) <= 2^63 & values < 2^63;
  else
    fits = values <= intmax('int64');
  end
  if ~all(fits)
    error('blocktri:notInteger', 'The values of A must be integers of 64 bits.');
  end
  values = int64(values(:));
end
