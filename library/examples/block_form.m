% Shows the flow sheet of the examples as it is written down, and in the orders that blocktri_dmperm finds. With the name of a file it
% draws both there, where Octave can.
%
%     octave-cli --eval "addpath library/build/octave library/examples; block_form('form.png')"
function block_form (picture)
  A = sparse([1 4 2 5 1 6 1 4 2 5 2 3], [1 1 2 2 3 3 4 4 5 5 6 6], 1, 6, 6);
  [p, q, r, s] = blocktri_dmperm(A);
  printf('%d blocks of %s rows\n', length(r) - 1, strjoin(strsplit(num2str(diff(r))), ', '));
  marks = '.x';
  % which entries of a block stand on the diagonal is left open: so the rows of each block are shown in their order
  for k = 1 : length(r) - 1
    p(r(k) : r(k + 1) - 1) = sort(p(r(k) : r(k + 1) - 1));
  end
  disp(marks(full(A(p, q)) + 1));
  if nargin > 0
    draw(A, A(p, q), r, s, picture);
  end
end

function draw (A, C, r, s, picture)
  shown = figure('visible', 'off');
  subplot(1, 2, 1), spy(A), title('A');
  subplot(1, 2, 2), spy(C), title('A(p,q)'), hold on
  for k = 1 : length(r) - 1
    x = s(k) - 0.5;  y = r(k) - 0.5;
    plot(x + [0 1 1 0 0] * (s(k + 1) - s(k)), y + [0 0 1 1 0] * (r(k + 1) - r(k)), 'k');
  end
  print(shown, picture, '-dpng');
end
