% Brings a matrix to block upper triangular form with btf.
%
%     octave --no-gui --eval "addpath examples; block_form('crates/btf/out/btf', 'examples/process.mtx')"
%
% Reads the report's orders, which count from 1 as Octave does, and shows the matrix before and after.
function block_form(btf, path)
  [status, report] = system([btf ' analyse --order < ' path]);
  if status ~= 0
    error('btf ended with status %d', status);
  end
  lines = strsplit(strtrim(report), "\n");
  rows = list_of(lines, 'row_order');
  columns = list_of(lines, 'column_order');
  A = read_matrix(path);
  show(A);
  show(A(rows, columns));
end

% The numbers behind the first word of the line that begins with it.
function numbers = list_of(lines, word)
  line = lines{strncmp(lines, [word ' '], length(word) + 1)};
  numbers = sscanf(line(length(word) + 1 : end), '%d')';
end

% A general file of real numbers.
function A = read_matrix(path)
  text = strsplit(fileread(path), "\n");
  text = text(~strncmp(text, '%', 1));
  numbers = sscanf(strjoin(text, ' '), '%f');
  entries = reshape(numbers(4 : end), 3, []);
  A = sparse(entries(1, :), entries(2, :), entries(3, :), numbers(1), numbers(2));
end

function show(A)
  signs = '.x';
  disp(signs(full(A ~= 0) + 1));
end
