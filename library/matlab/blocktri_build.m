function blocktri_build (headers, library)
%BLOCKTRI_BUILD Compiles BLOCKTRI_MEX, in MATLAB or Octave.
%   BLOCKTRI_BUILD(HEADERS,LIBRARY) compiles blocktri_mex.c in its own folder, with blocktri.h in
%   the folder HEADERS and the static library LIBRARY, which the mex file then holds:
%      blocktri_build('/usr/local/include', '/usr/local/lib/libblocktri.a')

  here = fileparts(mfilename('fullpath'));
  if exist('OCTAVE_VERSION', 'builtin')
    options = {};
  else
    options = {'-largeArrayDims'};
  end
  mex(options{:}, ['-I' headers], '-output', fullfile(here, 'blocktri_mex'), fullfile(here, 'blocktri_mex.c'), library);
end
