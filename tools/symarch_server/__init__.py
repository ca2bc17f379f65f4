"""symarch-server: an archive over HTTP. What answers are the functions of `symarch_tools`, in processes of their own.
In reading order:

- program           the words of a call, and what is missing here
- settings          what the words say
- tokens            who may read, and who may upload
- rooms             folders for what comes in and goes out
- control           what a worker is asked, and what it answers
- pool              the processes that work, and their limits
- demanglers        demanglers that stay
- worker            what such a process does
- jobs              the answers of symarch-keep, and what an archive has of a UUID
- form_jobs         forms, as browsers send them
- report_jobs       reports with names
- report_pages      a report as a page has it
- profile_jobs      the names of frames by module and offset
- refusals          why a request has no answer
- segments          bytes of several files as one
- missing           which dSYMs reports lacked
- metrics           what is counted
- site              all that requests share
- forms             the words of a request
- app               the application: who may ask, and what stands in each answer
- building          builds, and what an archive has of each
- reporting         reports
- fetching          slices and dSYM bundles
- profiling         names for profilers
- uploading         what comes in
- stating           numbers
- serving           how connections are held
- wsgi              the application for another server
"""
