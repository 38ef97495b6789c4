% The functions for Octave: matrices that were worked out by hand, random ones beside Octave's own dmperm and sprank and beside all
% diagonals, every type of matrix, and each error. It ends with status 1 at the first thing that is not so.
function test_blocktri ()
  rand('twister', 7);
  ranks();
  matchings();
  forms();
  beside_octave();
  types();
  diagonals();
  refusals();
  helps();
  triangular();
  disp('passed: Octave');
end

function ranks ()
  assert(blocktri_sprank(speye(3, 5)), 3);
  assert(blocktri_sprank(sparse(4, 4)), 0);
  assert(blocktri_sprank([1 0; 2 0]), 1);
  assert(blocktri_sprank(sparse([1 1 1; 1 0 0; 1 0 0])), 2);
  assert(blocktri_sprank(zeros(0, 3)), 0);
  assert(blocktri_sprank([]), 0);
end

% a shuffled identity is put right by its matching, and a shuffled triangle by the form
function matchings ()
  I = speye(12)(randperm(12), :);
  assert(I(blocktri_dmperm(I), :), speye(12));
  assert(blocktri_dmperm(sparse([0 1; 1 0; 0 0])), [2 1]);
  assert(blocktri_dmperm(sparse(2, 3)), [0 0 0]);
  assert(blocktri_dmperm([1 1; 1 1]), [1 2]);
  T = sparse(triu(ones(9)));
  S = T(randperm(9), randperm(9));
  [p, q, r, s] = blocktri_dmperm(S);
  assert(full(S(p, q)), full(T));
  assert(r, 1:10);
  assert(s, r);
end

function forms ()
  % rows 1: columns 1, 2, 3; 2: columns 3, 4; 3 and 4: column 4
  [p, q, r, s, cc, rr] = blocktri_dmperm([1 1 1 0; 0 0 1 1; 0 0 0 1; 0 0 0 1]);
  assert({r, s, cc, rr}, {[1 2 3 5], [1 3 4 5], [1 2 3 4 5], [1 2 3 4 5]});
  assert(sort(q(1:2)), [1 2]);
  assert(sort(p(3:4)), [3 4]);
  [p, q, r, s, cc, rr] = blocktri_dmperm(sparse(2, 0));
  assert({p, size(q), r, s, cc, rr}, {[1 2], [1 0], [1 3], [1 1], [1 1 1 1 1], [1 1 1 1 3]});
  [p, q, r, s] = blocktri_dmperm(sparse(0, 0));
  assert({size(p), size(q), r, s}, {[1 0], [1 0], 1, 1});
  % the first output of two is the order of the rows, not the matching
  [p, q] = blocktri_dmperm(sparse([1 1 0; 0 1 0]));
  assert({p, q}, {[1 2], [3 1 2]});
end

function A = drawn (rows, columns, dense)
  A = sparse(rand(rows, columns) < dense);
end

% the sizes of the blocks, in one order
function sizes = block_sizes (r, s)
  sizes = sortrows([diff(r(:)), diff(s(:))]);
end

% the diagonal, also of a matrix with one row or one column, of which diag makes a matrix
function entries = on_diagonal (A)
  n = min(size(A));
  entries = full(A((0 : n - 1) * rows(A) + (1 : n)))(:);
end

function beside_octave ()
  for time = 1 : 600
    A = drawn(floor(13 * rand()), floor(13 * rand()), rand() ^ 2);
    rank = sprank(A);
    assert(blocktri_sprank(A), rank);
    [p, q, r, s, cc, rr] = blocktri_dmperm(A);
    [p2, q2, r2, s2, cc2, rr2] = dmperm(A);
    assert({cc, rr}, {cc2, rr2});
    assert(block_sizes(r, s), block_sizes(r2, s2));
    assert({sort(p), sort(q)}, {1 : rows(A), 1 : columns(A)});
    C = A(p, q);
    assert(nnz(on_diagonal(C(:, cc(2) : end))), rank);
    for k = 1 : length(r) - 1
      assert(nnz(C(r(k + 1) : end, s(k) : s(k + 1) - 1)), 0);
    end
    match = blocktri_dmperm(A);
    assert(nnz(match), rank);
    assert(length(unique(match(match > 0))), rank);
    for j = find(match), assert(A(match(j), j)); end
  end
end

% what counts is the places alone
function types ()
  A = [0 3 0; 2 0 0; 1 0 0];
  for B = {A, sparse(A), A ~= 0, sparse(A ~= 0), single(A), int8(A), uint64(A), int64(A), A * 1i, sparse(A * 1i), A * NaN, -A, A / 0}
    keep = B{1};
    keep(A == 0) = 0;
    assert(blocktri_sprank(keep), 2);
    assert(nnz(blocktri_dmperm(keep)), 2);
  end
  assert(isempty(blocktri_dmperm([])));
  assert(blocktri_dmperm(zeros(3, 0)), zeros(1, 0));
end

% the greatest sum of all ways to choose a diagonal, or -1
function most = all_ways (A)
  most = -1;
  for order = perms(1 : rows(A))'
    chosen = A(sub2ind(size(A), order', 1 : rows(A)));
    if all(chosen ~= 0), most = max(most, sum(abs(chosen))); end
  end
end

function diagonals ()
  for time = 1 : 200
    n = 1 + floor(5 * rand());
    A = floor(19 * rand(n) - 9) .* (rand(n) < 0.7);
    if mod(time, 2), A = sparse(A); end
    most = all_ways(full(A));
    if most < 0
      assert(identifier_of(@() blocktri_heaviest(A)), 'blocktri:singular');
      continue
    end
    [p, u, v, total] = blocktri_heaviest(A);
    assert({class(u), class(v), class(total)}, {'int64', 'int64', 'uint64'});
    assert({size(u), size(v), double(total)}, {[n 1], [1 n], most});
    assert(sort(p), 1 : n);
    assert(blocktri_heaviest(A), p);
    room = double(u) + double(v) - abs(full(A));
    assert(all(room(full(A) ~= 0) >= 0));
    assert(room(sub2ind([n n], p, 1 : n)), zeros(1, n));
  end
  big = intmax('int64');
  [p, u, v, total] = blocktri_heaviest([big, 0; 0, big]);
  assert(total, intmax('uint64') - 1);
  [p, u, v, total] = blocktri_heaviest(-[big - 1, 0; 0, 1]);
  assert(total, uint64(big));
  assert(blocktri_heaviest(diag([big big big])), [1 2 3]);
  [p, u, v, total] = blocktri_heaviest([]);
  assert({size(p), size(u), size(v), total}, {[1 0], [0 1], [1 0], uint64(0)});
  assert(blocktri_heaviest(logical([0 1; 1 0])), [2 1]);
end

function identifier = identifier_of (call)
  identifier = '';
  try
    call();
  catch it
    identifier = it.identifier;
  end
end

function prices_of (A)
  [~, ~] = blocktri_heaviest(A);
end

function total_of (A)
  [~, ~, ~, ~] = blocktri_heaviest(A);
end

function refusals ()
  big = intmax('int64');
  % a light diagonal, and the heaviest entries below it: no prices of 64 bits prove the one diagonal that there is
  chain = eye(4, 'int64') + diag([big big big], -1);
  cases = {
    @() blocktri_sprank(), 'blocktri:usage';
    @() blocktri_dmperm(), 'blocktri:usage';
    @() blocktri_btf(), 'blocktri:usage';
    @() blocktri_heaviest(), 'blocktri:usage';
    @() blocktri_mex('sprank', 1), 'blocktri:usage';
    @() blocktri_mex('nothing', sparse(1)), 'blocktri:usage';
    @() blocktri_mex('heaviest', sparse(1), int64([1 2])), 'blocktri:usage';
    @() blocktri_sprank('abc'), 'blocktri:notNumeric';
    @() blocktri_dmperm({1}), 'blocktri:notNumeric';
    @() blocktri_sprank(ones(2, 2, 2)), 'blocktri:notNumeric';
    @() blocktri_btf(ones(2, 3)), 'blocktri:notSquare';
    @() blocktri_heaviest(ones(3, 2)), 'blocktri:notSquare';
    @() blocktri_heaviest([1 1; 0 0]), 'blocktri:singular';
    @() blocktri_heaviest(0.5), 'blocktri:notInteger';
    @() blocktri_heaviest(sparse([1 NaN])'), 'blocktri:notSquare';
    @() blocktri_heaviest(sparse([1 NaN; 0 1])), 'blocktri:notInteger';
    @() blocktri_heaviest([1 0; 0 Inf]), 'blocktri:notInteger';
    @() blocktri_heaviest(2 ^ 63), 'blocktri:notInteger';
    @() blocktri_heaviest(intmax('uint64')), 'blocktri:notInteger';
    @() blocktri_heaviest(1 + 2i), 'blocktri:notInteger';
    @() blocktri_heaviest(-2 ^ 63), 'blocktri:sumLimit';
    @() blocktri_heaviest(intmin('int64')), 'blocktri:sumLimit';
    @() blocktri_heaviest('a'), 'blocktri:notNumeric';
    @() total_of(diag([big big big])), 'blocktri:totalLimit';
    @() prices_of(chain), 'blocktri:priceLimit';
  };
  for k = 1 : rows(cases)
    assert(identifier_of(cases{k, 1}), cases{k, 2});
  end
  prices_of(diag([big big big]));
  assert(blocktri_heaviest(chain), 1 : 4);
end

% help tells what each function gives
function helps ()
  for name = {'sprank', 'dmperm', 'btf', 'heaviest'}
    text = get_help_text(['blocktri_' name{1}]);
    assert(strncmp(strtrim(text), ['BLOCKTRI_' upper(name{1}) ' '], 10 + length(name{1})));
    assert(~isempty(strfind(text, 'Example:')) && ~isempty(strfind(text, 'See also')));
  end
end

function triangular ()
  try
    blocktri_btf(1);
  catch it
    assert(it.identifier, 'blocktri:oldLibrary');
    disp('skipped: blocktri_btf, the library does not know BLOCKTRI_COMPLETE yet');
    return
  end
  [p, q, r] = blocktri_btf(sparse([1 1 0; 0 0 0; 0 1 1]));
  assert(nnz(q < 0), 1);
  [p, q, r] = blocktri_btf(sparse(2, 2));
  assert({sort(p), sort(q), r}, {[1 2], [-2 -1], [1 2 3]});
  [p, q, r] = blocktri_btf([]);
  assert({size(p), size(q), r}, {[1 0], [1 0], 1});
  for time = 1 : 400
    n = floor(11 * rand());
    A = drawn(n, n, rand() ^ 2);
    rank = sprank(A);
    [p, q, r] = blocktri_btf(A);
    assert({sort(p), sort(abs(q)), r([1 end])}, {1 : n, 1 : n, [1, n + 1]});
    C = A(p, abs(q));
    assert(find(q < 0)(:), find(~on_diagonal(C))(:));
    assert(nnz(on_diagonal(C)), rank);
    for k = 1 : length(r) - 1
      assert(nnz(C(r(k + 1) : end, r(k) : r(k + 1) - 1)), 0);
    end
    if rank == n
      [~, ~, r2] = dmperm(A);
      assert(sort(diff(r)(:)), sort(diff(r2)(:)));
    end
  end
end
