function pattern = blocktri_pattern (A)
%BLOCKTRI_PATTERN The sparse matrix whose entries BLOCKTRI_MEX reads.
%   S = BLOCKTRI_PATTERN(A) is A where A is sparse, and else a sparse logical matrix with the
%   nonzeros of A, a full matrix of any numeric or logical type. NaN is not zero.
%
%   Error: blocktri:notNumeric.

  if ~(isnumeric(A) || islogical(A)) || ndims(A) ~= 2
    error('blocktri:notNumeric', 'A must be a numeric or logical matrix.');
  end
  if issparse(A)
    pattern = A;
  else
    pattern = sparse(A ~= 0);
  end
end
